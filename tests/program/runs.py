"""Functions that the Python tests of the built program share."""
import concurrent.futures
import os
import pathlib
import resource
import sqlite3
import subprocess
import sys

ROOT = pathlib.Path(__file__).resolve().parent.parent.parent
sys.path.insert(0, str(ROOT / "tests"))

PROGRAM = pathlib.Path(os.environ.get("TESTED_PROGRAM", ROOT / "crates/enogate/out/enogate"))
# If the program is emulated, a limit of the process would limit the emulator.
CAN_LIMIT_RESOURCES = "TESTED_PROGRAM" not in os.environ
REFUSE_CALL_SOURCE = "refuse_call.c"

ADD_ORDER = "add 01800ABC D5-00-01\n"
ACCEPTED_LINE = '{"eep":"D5-00-01","id":"01800ABC","maker":null,"result":"accepted","type":"teach"}\n'
READING_LINE = (
    '{"dbm":-45,"eep":"D5-00-01","id":"01800ABC","readings":[{"name":"CO","word":"closed"}],"type":"reading"}\n'
)
OK_LINE = '{"type":"ok"}\n'

RUNNING_TEST_FILE = pathlib.Path(sys.argv[0]).name
failed_checks = []


def report_check(name, is_so):
    print(f"{RUNNING_TEST_FILE}: {name} {'ok' if is_so else 'FAILED'}", flush=True)
    if not is_so:
        failed_checks.append(name)


def status_line(ignored=0, readings=0, responses=0, teach=0, mode="closed"):
    """The answer to `status` if no order was refused."""
    return (
        f'{{"ignored":{ignored},"mode":"{mode}","readings":{readings},"refused":0,"responses":{responses},'
        f'"teach":{teach},"type":"status"}}\n'
    )


def limit_stack():
    """Limits a process to a stack of 128 KiB."""
    resource.setrlimit(resource.RLIMIT_STACK, (128 << 10, 128 << 10))


def limit_stack_and_memory():
    """Limits a process to this stack and 20 MiB of addresses."""
    limit_stack()
    resource.setrlimit(resource.RLIMIT_AS, (20 << 20, 20 << 20))


REPLAY_COMMAND = ["replay"]


def live_command(serial=os.devnull, desk="/dev/stdin", turn_count=8):
    """The words of a run of `live` that prints its answers. Without other paths its standard input is the desk, of
    which it reads at most 256 bytes in each turn, and the serial line has no bytes."""
    return ["live", "--serial", serial, "--desk", desk, "--out", "/dev/stdout", "--turns", str(turn_count)]


def program_command(base, database, service=REPLAY_COMMAND):
    return [PROGRAM, *service, "--base", base] + (["--db", database] if database else [])


def run_script(script, base="FF800000", database=None, service=REPLAY_COMMAND, **settings):
    """The text that a run writes to its two streams, and its status. The script comes through a pipe."""
    words = program_command(base, database, service)
    process = subprocess.run(words, input=script, capture_output=True, text=True, **settings)
    return process.stdout, process.stderr, process.returncode


def preload_environment(work, source, **variables):
    """The environment of a run with the library of this source, which these variables control."""
    library = work / (source + ".so")
    if not library.exists():
        source = ROOT / "tests" / "preload" / source
        subprocess.run(["cc", "-O1", "-shared", "-fPIC", "-o", library, source, "-ldl"], check=True)
    values = {name: str(variable_value) for name, variable_value in variables.items()}
    return {**os.environ, "LD_PRELOAD": str(library), **values}


def count_calls(work, kind, script, database=None, **settings):
    """How many calls of this kind a run makes."""
    count_file = work / "calls"
    run_script(script, database=database, env=preload_environment(
        work, REFUSE_CALL_SOURCE, REFUSE_KIND=kind, COUNT_CALLS=count_file), **settings)
    return int(count_file.read_text())


def check_each_failed_call(
    work, name, kind, script, case_of, case_names, database=None, is_kept=None, first_call=1, stays_broken=False,
    service=REPLAY_COMMAND
):
    """Each call of this kind fails in turn, from number `first` on, by itself or with all calls after it; in the end
    none fails. Each run is on the database of its number. It ends in a case, `none` if no call fails, and then
    `is_kept` holds for the database. Each of these cases occurs."""
    call_count = count_calls(work, kind, script, database and database(0), service=service)
    preload_environment(work, REFUSE_CALL_SOURCE)

    def differs(call_number):
        mark_file, path = work / f"mark_{call_number}", database and database(call_number)
        preload_variables = {"REFUSE_KIND": kind, "REFUSE_NUMBER": call_number, "REFUSE_MARK": mark_file,
                             **({"REFUSE_ON": 1} if stays_broken else {})}
        run_result = run_script(
            script, database=path, service=service,
            env=preload_environment(work, REFUSE_CALL_SOURCE, **preload_variables)
        )
        case_name = case_of(run_result)
        cases_met.add(case_name)
        was_refused = mark_file.exists()
        mark_file.unlink(missing_ok=True)
        is_so = case_name and was_refused == (call_number <= call_count) and (was_refused or case_name == "none")
        is_so = is_so and (not is_kept or is_kept(case_name, run_result, path))
        return None if is_so else f"number {call_number}, {case_name or 'of no case'}: {run_result}"

    cases_met = set()
    with concurrent.futures.ThreadPoolExecutor(os.cpu_count()) as pool:
        difference_texts = [text for text in pool.map(differs, range(first_call, call_count + 2)) if text]
    report_check(f"each of {call_count + 1 - first_call} {name}", not difference_texts and cases_met == set(case_names))
    for text in difference_texts[:3]:
        print(text)
    if missing_cases := set(case_names) - cases_met:
        print(f"not met: {missing_cases}")


def device_ids_in(database):
    connection = sqlite3.connect(database)
    rows = [row[0] for row in connection.execute("SELECT id FROM enogate_device_v2 ORDER BY id")]
    connection.close()
    return rows
