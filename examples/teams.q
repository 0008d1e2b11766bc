# Sums. Two teams of one studio reserve 10 Mbit/s each, the one to the server 10.7.3.9, the other to 10.7.3.8/29, in which the server lies;
# the server gets 20 Mbit/s, since the studio joins what stands inside it by `adding`. The words are those of teams.policy.

operator sibling
operator parent

operator adding {               # the column is the right action, the line the left one
              allow     deny      reserve
    allow     allow     deny      right
    deny      deny      deny      deny
    reserve   left      deny      sum
}

node studio between adding {
    shut: deny to 10.7.0.0/16

    node first {
        match: reserve 10 Mbit/s to 10.7.3.9
    }

    node second {
        match: reserve 10 Mbit/s to 10.7.3.8/29
    }
}
