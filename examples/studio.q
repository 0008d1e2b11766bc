# A studio of a game house: two regions with two teams each, their servers, and operations. The words are those of studio.policy.
# Where nothing else is said, rules and siblings are joined by `sibling` (Deny wins, then the larger rate, then Allow), and a node with those
# inside it by `parent` (what stands inside wins, but a reservation stays over an Allow, and of two rates the larger).

operator sibling
operator parent

operator cautious {             # America's own: as sibling, but of two rates the smaller
              allow     deny      reserve
    allow     allow     deny      right
    deny      deny      deny      deny
    reserve   left      deny      smaller
}

node house {
    uplink: deny in 1 to 10.7.0.0/16                  # players: denied, unless a node below says otherwise

    node europe {
        own: allow from 10.7.0.0/18 to 10.7.0.0/18

        node berlin {
            telnet: deny tcp to 10.7.0.0/20 port 23

            node berlin-games {
                game: allow udp to 10.7.1.0/24 port 27015
                repair: deny to 10.7.1.200/29

                node berlin-match {
                    there: reserve 40 Mbit/s udp to 10.7.1.10 port 27015
                    back: reserve 40 Mbit/s udp from 10.7.1.10 port 27015
                }
            }

            node berlin-build {
                patches: reserve 200 Mbit/s tcp from 10.7.2.0/24 to 10.7.66.0/24 port 873
                web: allow in 3 tcp to 10.7.2.0/24 port 443
            }
        }

        node lisbon {
            telnet: deny tcp to 10.7.16.0/20 port 23

            node lisbon-games {
                game: allow udp to 10.7.17.0/24 port 27015
                match: reserve 20 Mbit/s udp to 10.7.17.8/29 port 27015
            }

            node lisbon-voice {
                there: reserve 8 Mbit/s udp to 10.7.18.0/24 port 50000
                back: reserve 8 Mbit/s udp from 10.7.18.0/24 port 50000
            }
        }
    }

    node america between cautious {
        own: allow from 10.7.64.0/18 to 10.7.64.0/18

        node austin inside cautious between cautious {
            telnet: deny tcp to 10.7.64.0/20 port 23

            node austin-games inside cautious between cautious {
                match: reserve 60 Mbit/s udp to 10.7.65.20 port 27015
                all: reserve 30 Mbit/s udp to 10.7.65.0/24 port 27015      # the smaller rate is what 10.7.65.20 gets
            }

            node austin-mirror inside cautious between cautious {
                web: reserve 100 Mbit/s tcp to 10.7.66.0/24 port 443
                patches: reserve 50 Mbit/s tcp from 10.7.0.0/16 to 10.7.66.0/24 port 873
            }
        }

        node montreal {
            ssh: deny tcp to 10.7.80.0/20 port 22

            node montreal-games {
                game: allow udp to 10.7.81.0/24 port 27015
                match: reserve 15 Mbit/s udp to 10.7.81.5 port 27015
            }
        }
    }

    node operations {
        ssh: allow in 2 tcp to 10.7.0.0/16 port 22    # Montreal's Deny wins over it, being a sibling's

        node probes {
            pings: allow icmp from 10.7.250.0/24 to 10.7.0.0/16
            counters: allow udp from 10.7.250.0/24 to 10.7.0.0/16 port 161
        }

        node backups {
            copies: reserve 25 Mbit/s tcp from 10.7.0.0/16 to 10.7.251.0/24 port 10000
            shut: deny in 1 to 10.7.251.0/24
        }
    }
}
