# Ports. A studio denies source port 0; its region team allows pings, which have no ports. The words are those of pings.policy.
# A port is met only by packets of protocol 6 (TCP) or 17 (UDP), so `zero` says nothing about pings. `both` asks for a ping with a source
# port, which no packet is: such a rule may be written and makes no row.

node studio {
    zero: deny from port 0

    node team {
        pings: allow icmp
        both: deny icmp from port 0
    }
}
