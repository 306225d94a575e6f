/* Counts the ways to place nine queens on a board so that none attacks another, by trying each row in turn. Exits with 0 where
   there are 352 (OEIS A000170). */
enum { SIZE = 9 };

static unsigned char columns[SIZE], rising[2 * SIZE], falling[2 * SIZE];

static int ways(int row) {
    int found = 0;
    if (row == SIZE)
        return 1;
    for (int column = 0; column < SIZE; column++) {
        if (columns[column] | rising[row + column] | falling[row - column + SIZE])
            continue;
        columns[column] = rising[row + column] = falling[row - column + SIZE] = 1;
        found += ways(row + 1);
        columns[column] = rising[row + column] = falling[row - column + SIZE] = 0;
    }
    return found;
}

int main(void) { return ways(0) != 352; }
