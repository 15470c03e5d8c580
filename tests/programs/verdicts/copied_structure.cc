// Verdict: violation move
// Blocks: move
// An array in a structure is assigned as a whole, by the copy that the compiler makes, after another thread has changed it.
#include "steps.h"
#include <array>
#include <thread>
struct Board {
    std::array<short, 40> field;
    bool operator==(const Board &other) const { return field == other.field; }
};
static Board board;
static void move(bool first) {
    Board next = board;
    next.field[first] = 1;
    if (first) {
        make(0);
        await(1);
    }
    board = next;
}
int main() {
    std::thread other([] {
        await(0);
        move(false);
        make(1);
    });
    move(true);
    other.join();
    return board.field[0] != 0;
}
