/* Linked to the program tokenglade: before its main begins, a pipe that nobody reads, and a file that may not grow, become writes that fail.
   SIGPIPE is 13, SIGXFSZ 25, SIG_IGN 1. No header is included, so that the kit's compiler, which has none, can compile it for x86-64. */
void (*signal(int number, void (*handler)(int)))(int);

__attribute__((constructor)) static void ignore_signals(void) {
    signal(13, (void (*)(int))1);
    signal(25, (void (*)(int))1);
}
