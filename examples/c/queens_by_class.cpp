/* Queens on a board of 8 by 8 by the class, as BuDDy's example in C++ has them; and refusals that are thrown. */
#include "dd.hpp"
#include <iostream>
#include <vector>

using namespace rigzoban;

/* In how many ways a function holds that fixes each of its variables. */
static int ways(const Function &f) {
    auto [is_leaf, what] = f.top();
    return is_leaf ? static_cast<int>(what) : ways(f.taken()) + ways(f.other());
}

static Function board(const Manager &m, int n) {
    std::vector<std::vector<Function>> x(n);
    Function queens = m.one();
    for (int i = 0; i < n; i++)
        for (int j = 0; j < n; j++) x[i].push_back(m.var(static_cast<uint32_t>(i * n + j)));
    for (int i = 0; i < n; i++) {
        Function some = m.zero();
        for (int j = 0; j < n; j++) some |= x[i][j];
        queens &= some;
    }
    for (int i = 0; i < n; i++)
        for (int j = 0; j < n; j++)
            for (int k = 0; k < n; k++)
                for (int l = 0; l < n; l++)
                    if ((i != k || j != l) && (i == k || j == l || i + j == k + l || i - j == k - l)) queens &= x[i][j] >> !x[k][l];
    return queens;
}

int main() {
    Function kept = Manager(1, 0, 100).var(0);
    {
        Manager m(64, 0, 100000);
        std::cout << "8 queens: " << ways(board(m, 8)) << " ways\n";
        Function a = m.var(0), b = m.var(1), c = m.var(2);
        Function most = (a & b) | (b & c) | (c & a), copy = most;
        std::cout << "two of three by numbers: " << (most == (a.number() + b.number() + c.number()).at_least(2) ? "yes" : "no") << "\n";
        std::cout << "a & b <= two of three: " << ((a & b) <= copy ? "yes" : "no") << "\n";
        std::cout << "for some b: " << (most.exists({1}) == (a | c) ? "a | c" : "something else") << "\n";
        try {
            Function sum = a + b;
        } catch (const Refused &refused) {
            std::cout << "a sum of BDDs: " << refused.what() << "\n";
        }
        try {
            Function mixed = a & kept;
        } catch (const Refused &refused) {
            std::cout << "a function of another manager: " << refused.what() << "\n";
        }
        most = std::move(copy);
        std::cout << "what was moved: " << (most == (a.ite(b | c, b & c)) ? "as it was" : "lost") << "\n";
    }
    std::cout << "a function that outlives its manager's name: " << (kept == kept ? "as it was" : "lost") << "\n";
    return 0;
}
