/* What program.rattle takes on trust has no code. */
void bench_trusts(void) {}
