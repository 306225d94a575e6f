// A program in C++: a template, virtual functions, an object that is constructed before main. No victim.
// It needs no library; with one (make build/picolibc/shapes.elf) `new` is there too.
#include "io.h"

struct Shape {
  virtual unsigned area() const = 0;
};

struct Square : Shape {
  unsigned side;
  explicit Square(unsigned side) : side(side) {}
  unsigned area() const override { return side * side; }
};

struct Box : Shape {
  unsigned width, height;
  Box(unsigned width, unsigned height) : width(width), height(height) {}
  unsigned area() const override { return width * height; }
};

template <typename T, unsigned N> T sum(const T (&numbers)[N]) {
  T total = 0;
  for (T number : numbers)
    total += number;
  return total;
}

static volatile unsigned scale = 3;
static const Square square(scale); // constructed before main, as scale isn't known here
static const Box box(scale + 1, scale + 2);

int main() {
  const Shape *shapes[] = {&square, &box};
  unsigned areas[2] = {};
  for (int i = 0; i < 2; i++)
    areas[i] = shapes[i]->area();
  puts(sum(areas) == 29 ? "29" : "constructors didn't run");
  return sum(areas);
}
