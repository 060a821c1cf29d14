// A folder whose name is that of a system's.
static void put(volatile char *at) {
  *at = 1;
}
