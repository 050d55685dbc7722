"""The tool-info module of smtcheck, for BenchExec 3: checks the answers that a solver's run has left.

The script is the task's input file. The answers are the file that the option --answers names, or else that beside the script with .txt in
place of .smt2. Other options are those of smtcheck.
"""
import re

import benchexec.result as result
import benchexec.tools.template

VERDICT = re.compile(r"verdict: .*confirmed (\d+), refuted \d+, undecided \d+, unchecked \d+")


class Tool(benchexec.tools.template.BaseTool2):
    """How BenchExec runs smtcheck, and what a run has found."""

    def executable(self, tool_locator):
        return tool_locator.find_executable("smtcheck")

    def name(self):
        return "smtcheck"

    def project_url(self):
        return None

    def version(self, executable):
        # Some versions end with 5 after --version, so what it prints counts.
        return self._version_from_tool(executable, line_prefix="smtcheck ", ignore_stderr=True)

    def cmdline(self, executable, options, task, rlimits):
        script, answers, others = task.single_input_file, None, []
        words = iter(options)
        for word in words:
            if word == "--answers":
                answers = next(words, None)
            elif word.startswith("--answers="):
                answers = word[len("--answers=") :]
            else:
                others.append(word)
        if answers is None:
            answers = re.sub(r"\.smt2$", "", script) + ".txt"
        if not any(word.split("=")[0] in ("--print-success", "--solver") for word in others):
            others += ["--print-success", "off"]
        return [executable, *others, script, answers]

    def determine_result(self, run):
        lines = [line.rstrip("\n") for line in run.output]
        return result_of(run.exit_code.value, lines)


def result_of(status, lines):
    """What a run has found, by its status and its output: `true` and `false` are proved, and nothing else is."""
    counts = next((found for found in map(VERDICT.fullmatch, lines) if found), None)
    if status in (0, 1, 2, 3) and counts is None:
        return result.RESULT_ERROR + " (no report)"
    if status == 0:
        return result.RESULT_TRUE_PROP if counts.group(1) != "0" else result.RESULT_DONE
    if status == 1:
        return result.RESULT_FALSE_PROP
    if status == 2:
        return result.RESULT_UNKNOWN
    if status == 3:
        fault = next((line for line in lines if line.startswith("fault ")), "fault")
        return f"{result.RESULT_ERROR} ({' '.join(re.findall('fault [A-Z][0-9](?: [A-Z][0-9])?|in the [a-z]+', fault))})"
    return f"{result.RESULT_ERROR} (status {status})"
