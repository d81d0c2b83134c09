/* Reads a file, edits it, prints its lines, undoes, and writes it, with the classes of ropey.hpp.
 *
 *     notes FILE */
#include "ropey.hpp"
#include <fstream>
#include <iostream>

int main(int count, char **words) {
    if (count != 2) {
        std::cerr << "usage: notes FILE\n";
        return 2;
    }
    try {
        std::ifstream file(words[1], std::ios::binary);
        ropey::rope rope = ropey::rope::read(file);

        const size_t end = rope.len_chars();
        const ropey::changes edits(end, {{0, 5, "NOTES"}, {end, end, "!\n"}});
        const ropey::changes undo = edits.invert(rope);
        edits.apply(rope);
        size_t number = 0;
        for (const ropey::slice line : rope.lines()) {
            std::cout << ++number << ' ' << line;
        }
        std::cout << '\n';
        undo.apply(rope);
        std::ofstream(words[1], std::ios::binary) << rope;
        rope.insert(end + 1, "x");
    } catch (const ropey::refused &refused) {
        std::cout << refused.what() << '\n';
    }
    return 0;
}
