"""Judges a trial: by the observer, by the program, and by what failed."""

import itertools
import subprocess
from pathlib import Path
from typing import Iterator

from addresses import PRIMARIES, SITES
from asking import PATIENCE, Answer
from observer import Observer
from trial import Trial


def judge(trial: Trial, program: Path, scripts: list[list[str]]) -> Observer:
    observer = Observer(scripts, trial.asking.losses, trial.asking.limits)
    answers = [answer for answer in trial.asking.answers if not observer.is_lost(answer)]
    observer.seen["answers that a restore lost"] += len(trial.asking.answers) - len(answers)
    observer.judge_answers(answers)
    lost = list(trial.asking.lost())
    observer.passed["each request answered once"] += sum(len(client.names) for client in trial.asking.clients) - len(lost)
    observer.failed += [f"each request answered once: {words}" for words in lost]
    for site, is_first, path in trial.deployment.readings:
        observer.judge_readings(site, SITES[site], list(readings_in(path)), answers, to_the_end=is_first)
    judge_by_program(observer, program, scripts, answers)
    judge_numbers(observer, trial)
    archives = [trial.deployment.archive(name) for name in PRIMARIES if trial.deployment.archive(name).is_dir()]
    for wrong in trial.faults.wrong + trial.form.wrong + trial.form.audit(archives):
        observer.check("what failed", False, wrong)
    observer.check("starts within seconds", trial.start < PATIENCE / 2, f"it took {trial.start:.1f} seconds")
    if trial.faults.are_all:
        # A run that met no hard case would show nothing.
        observer.check("hard cases", observer.seen["spans weighed"] > 0, "no site lagged")
        observer.check("hard cases", len(scripts) > 2, "there were no epochs")
    judge_lengths(observer, trial)
    return observer


def readings_in(path: Path) -> Iterator[tuple[float, str]]:
    """When each reading began, and what it was."""
    for line in path.read_text().splitlines(keepends=True):
        if line.endswith("\n"):
            when, reading = line.split(maxsplit=1)
            yield float(when), reading


def judge_lengths(observer: Observer, trial: Trial) -> None:
    """No epoch ends but when it is due or asked for."""
    epochs = observer.epochs[1:-1]
    short = sum(epoch.asked < trial.deployment.every for epoch in epochs)
    right = short <= trial.asked_for
    observer.check("epochs that were asked for", right, f"{short} epochs ended early, and {trial.asked_for} were asked for")


def judge_by_program(observer: Observer, program: Path, scripts: list[list[str]], answers: list[Answer]) -> None:
    """A run of each script gives the answers that clients had. The check accepts the record of each site, and all of the epochs that
    followed one another with the same objects and groups while it was declared."""
    given: dict[tuple[str, ...], str] = {}
    series: dict[str, tuple[str, int]] = {}
    declared: list[list[str]] = []
    for number, lines in enumerate(scripts, 1):
        text = "".join(line + "\n" for line in lines)
        said = output_of([program, "run"], text).splitlines()
        given.update(answers_of(number, lines, said))
        sites = sorted(line.split()[1] for line in lines if line.startswith("site "))
        before, declared = declared, declared_in(lines)
        for site in set(series) - set(sites if declared == before else []):
            judge_series(observer, program, site, *series.pop(site))
        for site in sites:
            rounds = sum(answer.startswith("ok round ") and site in answer.split() for answer in said)
            record = output_of([program, "record", site], text)
            verdict = output_of([program, "check"], record).strip()
            observer.check("records", verdict == f"yes {rounds}", f"{site} in epoch {number}: `{verdict}` for {rounds} rounds")
            observer.seen["rounds"] += rounds
            records, others = series.get(site, ("", 0))
            series[site] = records + record, others + rounds
    for site, (records, rounds) in series.items():
        judge_series(observer, program, site, records, rounds)
    for answer in answers:
        came = given.get((answer.client, str(answer.number)))
        words = f"{answer.client} {answer.number}: `{answer.text}`, and by the script `{came}`"
        observer.check("answers of the script", came == answer.text, words)


def judge_series(observer: Observer, program: Path, site: str, records: str, rounds: int) -> None:
    verdict = output_of([program, "check", "--series"], records).strip()
    observer.check("series of records", verdict == f"yes {rounds}", f"{site}: `{verdict}` for {rounds} rounds")


def judge_numbers(observer: Observer, trial: Trial) -> None:
    """The primary that writes gives the numbers of the last epoch."""
    last = observer.epochs[-1].end()
    for name, has, value in trial.form.numbers_of(trial.faults.writer(), len(observer.epochs) - 1, last):
        observer.check("numbers for operators", has == value, f"{name} is {has}, not {value}")


def declared_in(script: list[str]) -> list[list[str]]:
    """The names of the objects, and the groups with their members."""
    words = [line.split() for line in itertools.takewhile(lambda line: line != "start", script)]
    return [line[:2] if line[0] == "object" else line for line in words if line[:1] in (["object"], ["group"])]


def output_of(words: list[Path | str], text: str) -> str:
    return subprocess.run(words, input=text, stdout=subprocess.PIPE, text=True).stdout


def answers_of(epoch: int, lines: list[str], said: list[str]) -> dict[tuple[str, ...], str]:
    """What a run of the script of an epoch answers to each request: its client and its number, and the answer."""
    given: dict[tuple[str, ...], str] = {}
    waiting: list[tuple[str, ...]] = []
    asker: tuple[str, ...] = ()
    answers = iter(said)
    for line in (line for line in lines if line.strip()):
        if line.startswith("#"):
            asker = tuple(line.split()[2:4])
            continue
        answer = next(answers, "")
        if line.startswith("propose ") and answer.startswith("ok "):
            waiting.append(asker)
        elif line.startswith("propose "):
            given[asker] = answer
        elif answer.startswith("ok acked "):
            given[waiting[int(answer.split()[2]) - 1]] = f"{answer} epoch {epoch}"
    return given
