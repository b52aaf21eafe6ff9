// Arrays of integers, of arrays and of objects, with switches, shifts and conversions.
// Compiled by Mono's mcs with -target:library -optimize+.
namespace Demo {
    public class Cell {
        public long Value;
        public Cell Next;
        public static int Made;
        public Cell(long value) { Value = value; Made = Made + 1; }
    }

    public static class Rows {
        public static long Sum(int[] xs, byte[] weights) {
            long sum = 0;
            for (int i = 0; i < xs.Length; i++) {
                sum += (long)xs[i] * weights[i % weights.Length];
            }
            return sum;
        }

        public static int Grid(int rows, int columns) {
            int[][] grid = new int[rows][];
            for (int r = 0; r < rows; r++) {
                grid[r] = new int[columns];
                for (int c = 0; c < columns; c++) { grid[r][c] = r << c & 31; }
            }
            return Pick(grid, (uint)rows, columns);
        }

        static int Pick(int[][] grid, uint kind, int columns) {
            switch (kind) {
                case 0: return 0;
                case 1: return grid[0][columns - 1];
                case 2: return checked(grid[0][0] + grid[1][0]);
                case 3: return (short)grid[2][0];
                default: return -(int)(kind / 3);
            }
        }

        public static long Chain(int count) {
            Cell[] cells = new Cell[count];
            Cell last = null;
            for (int i = 0; i < count; i++) {
                cells[i] = new Cell(i) { Next = last };
                last = cells[i];
            }
            return last == null ? Cell.Made : last.Value;
        }
    }
}
