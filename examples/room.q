# More rows than room. Eleven rules of one node, of which some packet meets each set: 2,047 rows. The listing has room for 1,024, so it is
# refused with 12. A compile with a larger buffer takes it. The cure: rules whose matches don't overlap, or fewer of them. The words are
# those of room.policy.

node studio {
    net-8: reserve 1 Mbit/s to 10.0.0.0/8
    net-9: reserve 2 Mbit/s to 10.0.0.0/9
    net-10: reserve 3 Mbit/s to 10.0.0.0/10
    net-11: reserve 4 Mbit/s to 10.0.0.0/11
    net-12: reserve 5 Mbit/s to 10.0.0.0/12
    net-13: reserve 6 Mbit/s to 10.0.0.0/13
    net-14: reserve 7 Mbit/s to 10.4.0.0/14
    net-15: reserve 8 Mbit/s to 10.6.0.0/15
    net-16: reserve 9 Mbit/s to 10.7.0.0/16
    net-17: reserve 10 Mbit/s to 10.7.0.0/17
    net-18: reserve 11 Mbit/s to 10.7.0.0/18
}
