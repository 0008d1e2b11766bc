# Two siblings. One team reserves 40 Mbit/s to a server, the other 60 Mbit/s to the net in which it lies, and denies one of its addresses.
# Under `sibling`, whichever team stands first, Deny wins over a reservation, and of two rates the larger counts: the server gets 60 Mbit/s,
# and 10.7.3.66 nothing. The words are those of siblings.policy.

node studio {
    node match {
        server: reserve 40 Mbit/s udp to 10.7.3.9 port 27015
    }

    node voice {
        all: reserve 60 Mbit/s udp to 10.7.3.0/24
        repair: deny to 10.7.3.66
    }
}
