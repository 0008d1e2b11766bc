node studio {
    shut: deny to 10.7.0.0/16

    node team {
        match: reserve 4294967296 kbit/s to 10.7.3.9
    }
}
