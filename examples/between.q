# A studio allows in-ports 1 and 2, and denies 10.7.0.0/16 between them. The words are those of between.policy.
# `operator sibling` alone says which operators the file has: the studio's other two operators are `sibling` too, so there is no `parent`.

operator sibling

node studio below sibling {
    first: allow in 1
    shut: deny to 10.7.0.0/16
    second: allow in 2
}
