/* Functions as values for C++: a copy is a further handle, and what goes out of scope is dropped. A call that is not done throws Refused, and
 * each function stays as it was. A manager is closed when it and its last function are gone. */
#ifndef DD_HPP
#define DD_HPP
#include "dd.h"
#include <atomic>
#include <memory>
#include <stdexcept>
#include <string>
#include <utility>
#include <vector>

namespace rigzoban {

struct Refused : std::runtime_error {
    dd_status status;
    explicit Refused(dd_status s) : std::runtime_error("status " + std::to_string(s)), status(s) {}
};

inline void done(dd_status status) {
    if (status != DD_OK) throw Refused(status);
}

class Function {
    std::shared_ptr<dd_manager> m;
    dd f = DD_NONE;

    template <typename Call, typename... More> Function made(Call call, More... more) const { return Function(m, call, f, more...); }

public:
    /* What a call of dd.h makes: Function(m, dd_var, 3). */
    template <typename Call, typename... More> Function(std::shared_ptr<dd_manager> manager, Call call, More... more) : m(std::move(manager)) {
        done(call(m.get(), more..., &f));
    }
    Function(const Function &other) : m(other.m) { done(dd_copy(m.get(), other.f, &f)); }
    /* What is left behind has no handle: a call on it throws Refused. */
    Function(Function &&other) noexcept : m(other.m), f(std::exchange(other.f, DD_NONE)) {}
    Function &operator=(Function other) noexcept {
        std::swap(m, other.m);
        std::swap(f, other.f);
        return *this;
    }
    ~Function() { dd_drop(m.get(), f); }

    Function operator&(const Function &g) const { return made(dd_and, g.f); }
    Function operator|(const Function &g) const { return made(dd_or, g.f); }
    Function operator^(const Function &g) const { return made(dd_xor, g.f); }
    Function operator>>(const Function &g) const { return (!*this) | g; }
    Function operator!() const { return made(dd_not); }
    Function operator+(const Function &g) const { return made(dd_plus, g.f); }
    Function operator-(const Function &g) const { return made(dd_minus, g.f); }
    Function operator*(const Function &g) const { return made(dd_times, g.f); }
    Function &operator&=(const Function &g) { return *this = *this & g; }
    Function &operator|=(const Function &g) { return *this = *this | g; }
    Function ite(const Function &g, const Function &h) const { return made(dd_ite, g.f, h.f); }
    Function number() const { return made(dd_from_bdd); }
    Function at_least(int64_t value) const { return made(dd_at_least, value); }
    Function exists(const std::vector<uint32_t> &variables) const { return made(dd_exists, variables.data(), variables.size()); }
    Function taken() const { return made(dd_then); }
    Function other() const { return made(dd_else); }

    bool operator==(const Function &g) const {
        bool same;
        done(dd_same(m.get(), f, g.f, &same));
        return same;
    }
    bool operator!=(const Function &g) const { return !(*this == g); }
    bool operator<=(const Function &g) const {
        bool implies;
        done(dd_leq(m.get(), f, g.f, &implies));
        return implies;
    }
    /* Whether it is a leaf, and its value, or else the variable at its top. */
    std::pair<bool, int64_t> top() const {
        std::pair<bool, int64_t> top;
        done(dd_top(m.get(), f, &top.first, &top.second));
        return top;
    }
};

/* Each manager has the next number, so no handle of one is taken for another's. */
class Manager {
    inline static std::atomic<uint32_t> opened{0};
    std::shared_ptr<dd_manager> m;

    explicit Manager(dd_manager *made) : m(made, dd_close) {
        if (!m) throw Refused(DD_CLOSED);
    }

public:
    Manager(uint32_t variables, uint32_t elements, uint32_t slots) : Manager(dd_open(opened++, variables, elements, slots)) {}
    Manager(uint32_t variables, uint32_t elements, uint32_t slots, uint32_t remembered)
        : Manager(dd_open_remembering(opened++, variables, elements, slots, remembered)) {}
    Function one() const { return Function(m, dd_one); }
    Function zero() const { return Function(m, dd_zero); }
    Function var(uint32_t v) const { return Function(m, dd_var, v); }
    Function number(int64_t value) const { return Function(m, dd_number, value); }
    Function single(uint32_t e) const { return Function(m, dd_single, e); }
};

} // namespace rigzoban
#endif
