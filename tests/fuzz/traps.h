/* Coverage of the library's machine code as it stands, which was compiled without any for libFuzzer: each instruction begins
 * as a breakpoint, and the first time that it is reached its byte is put back and libFuzzer is told. So reaching new code
 * makes libFuzzer keep an input, and code reached before costs nothing. */
#ifndef TRAPS_H
#define TRAPS_H

/* Sets them at the addresses in the file PROGRAM.instructions, a line each, rising, in hexadecimal digits. When the program
 * ends in order, the file PROGRAM.unreached has the addresses still set. */
void traps_set(const char *program);

#endif
