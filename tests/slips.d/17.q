node studio {
    shut: deny to