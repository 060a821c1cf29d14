// A template with the type of a function, whose code the linker keeps once.
template <class F> struct Later {
  F call;
  int *at;
  __attribute__((noinline)) int run() { return at[3] + call(1); }
};
