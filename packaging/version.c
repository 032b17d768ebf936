/* The library's version as one number, which the proved functions don't know: `install` compiles this with the numbers of
 * the header, by the toolchain's compiler, which has no headers of C's own, and puts it beside them. */
unsigned tcam_c_version(void);

unsigned tcam_c_version(void) { return VERSION; }
