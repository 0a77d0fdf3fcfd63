// The desk beside clasp, an answer set solver, on the same books: the ways of bench/ways.lp, grounded by gringo, every optimal model
// enumerated and none printed. The number and the cost of the ways must agree.
#include "measure.h"
#include "process.h"
#include "sets.h"

static const std::string folder = "target/bench/";
static const int limit = 3;                // seconds, after which clasp is stopped

static void write_facts(const Book &b, const std::string &file) {
    std::ofstream out(file);
    auto fact = [&](const char *name, std::vector<int> numbers) {
        const char *before = "(";
        out << name;
        for (int x : numbers) {
            out << before << x;
            before = ",";
        }
        out << ").\n";
    };
    fact("players", {b.players});
    fact("fee", {b.fee});
    for (int i = 1; i <= 16; i++)
        for (int j = 1; j <= 16; j++)
            if (b.ticks[i][j] >= 0) fact("move", {i, j, b.ticks[i][j], b.costs[i][j]});
    for (size_t k = 0; k < b.entries.size(); k++) fact("entry", {int(k) + 1, b.entries[k].arrives, b.entries[k].leaves, b.entries[k].start, b.entries[k].finish});
}

struct Answer {
    bool done;                             // within the limit
    long ways;
    long long cost;
    double time, told;                     // the processor time of the process, and the time that clasp tells
};

static double number_after(const std::string &text, const char *key) {
    size_t at = text.find(key);
    return at == std::string::npos ? -1 : atof(text.c_str() + text.find_first_of("0123456789", at));
}

static Answer clasp_once(const std::string &ground, long most, const char *strategy) {
    const std::string to = folder + "answer.json";
    double time = processor_time({"clasp", ground, "--opt-mode=optN", std::string("--opt-strategy=") + strategy, "-n", std::to_string(most), "--time-limit=" + std::to_string(limit), "--quiet=2,2,2", "--outf=2"}, to);
    const std::string text = contents(to);
    return {text.find("\"TIME LIMIT\"") == std::string::npos && text.find("\"OPTIMUM FOUND\"") != std::string::npos, long(number_after(text, "\"Optimal\"")), (long long)number_after(text, "\"Costs\""), time,
        1e6 * number_after(text, "\"Total\"")};
}

// The shortest of three runs where they are short.
static Answer clasp(const std::string &ground, long most, const char *strategy) {
    Answer best = clasp_once(ground, most, strategy);
    for (int k = 0; k < 2 && best.time < 100000; k++)
        if (Answer a = clasp_once(ground, most, strategy); a.time < best.time) best = a;
    return best;
}

static void agree(LentBook &book, uint16_t cap, const Answer &a) {
    desk_reply first = book.first(), count = book.count(cap);
    long ways = count.code == DESK_MORE ? cap + 1L : long(count.value);
    if (a.ways == ways && a.cost == first.value) return;
    wrong++;
    printf("DIFFERENT: library %ld ways of cost %lld, clasp %ld of %lld\n%s", ways, (long long)first.value, a.ways, a.cost, book.text.c_str());
}

// A call of the library that goes through all ways up to the cap, and clasp told to stop at one more.
template <class Call> static void compare(Table &table, const std::string &what, const std::vector<Book> &set, uint16_t cap, double start, Call call) {
    std::vector<double> library, ground, time, told, ratio, ways;
    int late = 0;
    for (const Book &b : set) {
        LentBook book(b);
        const std::string facts = folder + "facts.lp", program = folder + "ground.aspif";
        write_facts(b, facts);
        ground.push_back(processor_time({"gringo", "bench/ways.lp", facts}, program) / 1000);
        Answer best = clasp(program, cap + 1L, "bb"), other = clasp(program, cap + 1L, "usc");
        for (const Answer &a : {best, other}) if (a.done) agree(book, cap, a);
        if (other.done > best.done || (other.done == best.done && other.time < best.time)) best = other;
        late += !best.done;
        library.push_back(time_of([&] { call(book); }) / 1000);
        time.push_back((best.time - start) / 1000);
        told.push_back(best.told / 1000);
        ratio.push_back(time.back() / library.back());
        ways.push_back(double(book.count(cap).code == DESK_MORE ? cap : book.count(cap).value));
    }
    table.row({what, whole(double(set.size())), whole(median(ways)), shown(median(library)), shown(median(ground)), shown(median(time)), shown(median(told)), shown(median(ratio)),
        shown(*std::min_element(ratio.begin(), ratio.end())), shown(largest(ratio)), whole(late)});
}

int main() {
    const std::string empty = folder + "empty.aspif";
    std::ofstream(empty) << "asp 1 0 0\n0\n";
    std::vector<double> starts;
    for (int k = 0; k < 31; k++) starts.push_back(processor_time({"clasp", empty, "--quiet=2,2,2", "--outf=2"}, folder + "answer.json"));
    const double start = *std::min_element(starts.begin(), starts.end());
    printf("### Beside clasp, in milliseconds\n\n");
    printf("The processor time of clasp's process on the ground program, less %s ms, which it takes for an empty program; beside it the time that clasp tells. It runs with each of its two "
           "optimisation strategies (bb and usc), and the faster counts; a run is stopped after %d s by the clock, and what it took until then counts. gringo's time stands apart and is in no ratio.\n\n", shown(start / 1000).c_str(), limit);
    const std::vector<std::string> columns = {"books", "how many", "ways", "library", "gringo", "clasp", "clasp tells", "clasp / library", "at least", "at most", "not done"};
    printf("Listing, as far as 1,000 ways:\n\n");
    {
        Table table(columns);
        auto list = [](LentBook &b) { b.list(); };
        for (int e : {12, 16, 20, 24}) compare(table, std::to_string(e) + "-entry books", books(e * 3 / 2, 3, 7, e), 1000, start, list);
        compare(table, "16-entry books without a fee", without_fee(books(24, 3, 7, 16)), 1000, start, list);
        for (auto &s : movements(7)) compare(table, s.what, s.books, 1000, start, list);
    }
    printf("Count to 65,535, of books with more ways:\n\n");
    {
        Table table(columns);
        for (auto &s : long_movements()) compare(table, s.what, s.books, 65535, start, [](LentBook &b) { b.count(65535); });
    }
    return verdict();
}
