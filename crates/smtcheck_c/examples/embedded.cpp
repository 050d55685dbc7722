// Checks what an embedded solver has printed, before its model is used. Here the solver is a string.
#include "smtcheck.h"
#include <iostream>
#include <string>

struct Report {
    uint32_t outcome;
    smtcheck_summary summary;
    std::string text;
};

// The report on a dialogue whose solver prints no `success`.
Report check(const std::string &script, const std::string &answers) {
    smtcheck_options options = {SMTCHECK_STEPS, false, false};
    Report report = {SMTCHECK_MEMORY, {}, std::string(256, '\0')};
    size_t wanted = 0;
    for (;;) {
        report.outcome = smtcheck_validate(script.data(), script.size(), answers.data(), answers.size(), &options, &report.summary,
                                           &report.text[0], report.text.size(), &wanted);
        bool told = report.outcome <= SMTCHECK_REFUSED, fits = wanted <= report.text.size();
        report.text.resize(told ? wanted : 0);
        if (!told || fits) return report;
    }
}

// A solver that is linked in, and has one answer to any script.
struct Solver {
    std::string answer;
    std::string solve(const std::string &) const { return "sat\n((define-fun x () Int " + answer + "))\n"; }
};

int main() {
    const std::string script = "(declare-const x Int)\n(assert (< 5 x))\n(check-sat)\n(get-model)\n";
    Report right = check(script, Solver{"7"}.solve(script)), wrong = check(script, Solver{"3"}.solve(script));
    std::cout << right.text << wrong.text;
    bool well = right.outcome == SMTCHECK_VALID && right.summary.confirmed == 1 && right.summary.lines == 2;
    return well && wrong.outcome == SMTCHECK_INVALID && wrong.summary.refuted == 1 ? 0 : 1;
}
