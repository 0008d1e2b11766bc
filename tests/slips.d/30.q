node studio {
    r1: allow any
    r2: allow any
    r3: allow any
    r4: allow any
    r5: allow any
    r6: allow any
    r7: allow any
    r8: allow any
    r9: allow any
    r10: allow any
    r11: allow any
}
