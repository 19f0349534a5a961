// The game of life on a torus: each row of each generation is computed by a branch of its own, from the cells of the
// generation before as they come.
// Ints: none. Answer: 5, the cells of a glider, which has gone one place down and to the right after four generations.
const int SIDE = 5;
const int CELLS = SIDE * SIDE;
const int GENERATIONS = 4;

int place(int row, int column) { return (row + SIDE) % SIDE * SIDE + (column + SIDE) % SIDE; }

int next(sync int *now, int row, int column) {
  int around = 0;
  for (int i = -1; i <= 1; i++)
    for (int k = -1; k <= 1; k++)
      if (i != 0 || k != 0) around += now[place(row + i, column + k)];
  return around == 3 || around == 2 && now[place(row, column)] == 1;
}

int is_glider(int row, int column) {
  return row == 0 && column == 1 || row == 1 && column == 2 || row == 2 && column < 3;
}

int main() {
  sync int cell[(GENERATIONS + 1) * CELLS];
  par {
    parfor (int i = 0; i < CELLS; i++) cell[i] = is_glider(i / SIDE, i % SIDE);
    parfor (int g = 0; g < GENERATIONS; g++)
      parfor (int row = 0; row < SIDE; row++)
        for (int column = 0; column < SIDE; column++)
          cell[(g + 1) * CELLS + place(row, column)] = next(&cell[g * CELLS], row, column);
  }
  int alive = 0;
  for (int row = 0; row < SIDE; row++) {
    for (int column = 0; column < SIDE; column++) {
      int last = cell[GENERATIONS * CELLS + place(row, column)];
      if (last == 1) cout << "#";
      else cout << ".";
      alive += last;
    }
    cout << endl;
  }
  return alive;
}
