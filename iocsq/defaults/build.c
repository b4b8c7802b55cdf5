/* Of a library that isn't an installed one, and says nothing of itself. */
const char *csq_build(void);
const char *csq_build(void) {
    return "";
}
