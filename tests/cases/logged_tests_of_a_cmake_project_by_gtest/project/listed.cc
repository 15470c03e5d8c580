// Lists and runs its tests as those of gtest do: one by its name.
#include <cstdio>
#include <string>

extern "C" int run_counter(int words, const char *const *word);

int main(int words, char **word) {
    const std::string asked = words > 1 ? word[1] : "";
    if (asked == "--gtest_list_tests") {
        std::puts("Counter.\n  Together\n  Apart");
        return 0;
    }
    const char *const given[] = {"counter", asked == "--gtest_filter=Counter.Apart" ? "apart" : "together", nullptr};
    return run_counter(2, given) == 3 ? 0 : 1;
}
