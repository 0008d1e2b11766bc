node studio {
    shut: deny to 168230912

    node team {
        match: reserve 40 Mbit/s to 10.7.3.9
    }
}
