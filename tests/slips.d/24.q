node studio {
    shut: drop to 10.7.0.0/16

    node team {
        match: reserve 40 Mbit/s to 10.7.3.9
    }
}
