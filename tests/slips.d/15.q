operator cautious {
              allow    deny     reserve
    allow     larger   deny     right
    deny      deny     deny     deny
    reserve   left     deny     smaller
}

node studio inside cautious {
    shut: deny to 10.7.0.0/16

    node team {
        match: reserve 40 Mbit/s to 10.7.3.9
    }
}
