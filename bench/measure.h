// How the benches measure: the median time of a call, and tables of the medians.
#pragma once
#include <algorithm>
#include <cstdio>
#include <string>
#include <time.h>
#include <vector>

inline double now() {                      // microseconds of this thread
    timespec t;
    clock_gettime(CLOCK_THREAD_CPUTIME_ID, &t);
    return double(t.tv_sec) * 1e6 + double(t.tv_nsec) / 1e3;
}

__attribute__((noinline)) inline double median(std::vector<double> x) {      // inlined, g++ 12 warns of its copy
    if (x.empty()) return 0;
    std::sort(x.begin(), x.end());
    return x[x.size() / 2];
}

inline double largest(const std::vector<double> &x) { return x.empty() ? 0 : *std::max_element(x.begin(), x.end()); }

// The median time of a call, from 3 samples at least and 31 at most, as many as go into `limit` microseconds. A sample is 20 microseconds or
// more of calls.
template <class F> double time_of(F call, double limit = 20000) {
    const double start = now();
    call();
    const int calls = 1 + int(20 / std::max(now() - start, 0.1));
    std::vector<double> samples;
    do {
        double t = now();
        for (int k = 0; k < calls; k++) call();
        samples.push_back((now() - t) / calls);
    } while (samples.size() < 3 || (samples.size() < 31 && now() - start < limit));
    return median(samples);
}

// Three figures of a number.
inline std::string shown(double x) {
    char text[32];
    snprintf(text, sizeof text, x < 0.1 ? "%.3f" : x < 10 ? "%.2f" : x < 100 ? "%.1f" : "%.0f", x);
    return text;
}

// The median of what was measured, if anything was.
inline std::string middle(const std::vector<double> &x) { return x.empty() ? "" : shown(median(x)); }

inline std::string whole(double x) { return std::to_string((long long)(x + 0.5)); }

// A table in Markdown, printed when it is complete.
struct Table {
    std::vector<std::vector<std::string>> rows;

    explicit Table(std::vector<std::string> head) : rows{head, std::vector<std::string>(head.size(), "-")} {}
    void row(std::vector<std::string> cells) { rows.push_back(cells); }
    ~Table() {
        std::vector<size_t> width(rows[0].size());
        for (auto &r : rows) for (size_t c = 0; c < r.size(); c++) width[c] = std::max(width[c], r[c].size());
        for (auto &r : rows) {
            for (size_t c = 0; c < r.size(); c++) printf("| %-*s ", int(width[c]), r[c] == "-" ? std::string(width[c], '-').c_str() : r[c].c_str());
            printf("|\n");
        }
        printf("\n");
        fflush(stdout);
    }
};

inline int wrong = 0;                      // answers that differ

// The status of a bench: 1 if answers differ.
inline int verdict() {
    if (wrong) printf("%d answers DIFFER\n", wrong);
    return wrong ? 1 : 0;
}
