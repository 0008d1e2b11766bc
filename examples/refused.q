# A refused law. The studio joins its own rules by `parent`, under which the right action wins: Allow with Deny is Deny, but Deny with
# Allow is Allow. Inside a node and between siblings nobody should have to care in which order rules or siblings stand, so the file is
# refused with 10, and its place is 1: `parent`, which the studio names behind `inside`. The words are those of refused.policy.

operator sibling
operator parent

node studio inside parent {
    shut: deny to 10.7.0.0/16

    node team {
        match: reserve 40 Mbit/s to 10.7.3.9
    }
}
