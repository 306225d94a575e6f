/* Sorts 2,000 numbers by quicksort, several times, and exits with 0 where they are in order. */
enum { COUNT = 2000, ROUNDS = 4 };

static unsigned numbers[COUNT];

static void fill(unsigned seed) {
    for (int i = 0; i < COUNT; i++) {
        seed = seed * 1664525u + 1013904223u;
        numbers[i] = seed;
    }
}

static void sort(int low, int high) {
    while (low < high) {
        unsigned middle = numbers[(low + high) / 2];
        int i = low, j = high;
        while (i <= j) {
            while (numbers[i] < middle)
                i++;
            while (middle < numbers[j])
                j--;
            if (i <= j) {
                unsigned kept = numbers[i];
                numbers[i++] = numbers[j];
                numbers[j--] = kept;
            }
        }
        sort(low, j);
        low = i;
    }
}

int main(void) {
    for (int round = 0; round < ROUNDS; round++) {
        fill(round + 1);
        sort(0, COUNT - 1);
        for (int i = 1; i < COUNT; i++)
            if (numbers[i] < numbers[i - 1])
                return 1;
    }
    return 0;
}
