// Nothing but an end: what is linked after it, the library, begins at a multiple of 64 bytes, however long the code before it is. The address
// of a loop moves its time by a third.
__asm__(".text\n.p2align 6\n");
