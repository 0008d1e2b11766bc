# A child overrides its parent. A tenant's studio denies 10.7.0.0/16, and its region team reserves 40 Mbit/s to one server inside it.
# Inside a node and between siblings the operator is `sibling`, from a node to those inside it `parent`, since nothing else is said: the
# team's reservation holds to 10.7.3.9, the studio's denial everywhere else. The words are those of tenant.policy.

node studio {
    shut: deny to 10.7.0.0/16

    node team {
        match: reserve 40 Mbit/s to 10.7.3.9
    }
}
