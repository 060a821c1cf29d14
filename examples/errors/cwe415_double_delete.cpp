// CWE-415, double free: two owners delete an object.
// heap: always: free of a block of 8 bytes that was freed
struct owner {
  long *number;
  __attribute__((noinline)) ~owner() {
    delete number;  // WRONG
    number = nullptr;
  }
};

long *number;

int main() {
  number = new long(5);
  owner one{number}, other{number};
  return 0;
}
