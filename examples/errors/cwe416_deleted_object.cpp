// CWE-416, use after free: a member of an object that was deleted.
// heap: always: load of 8 bytes, 16 bytes into a block of 24 bytes that was freed
struct point { long x, y, z; };

point *p;

int main() {
  p = new point{1, 2, 3};
  delete p;
  volatile long z = p->z;  // WRONG
  return z != 3 && 0;
}
