#!/usr/bin/env python3
"""What a reader of a promise has to believe: `believed.py [NAME] [--laws] [--but=NAME=NAME,.. ..]`.

It counts the definitions of `specs/` that a definition names, with all that these name in turn, and their lines without
comments, imports and empty lines, by crate. The default is `Headline` of pb_build with `ByFirst`, the schedule of `build`,
and `FindsAsReading`, which the law `records_have_a_reading` states of `reading`.

`--but=NAME=NAME,..` counts the statements of laws in place of what one definition names. A reader who believes the laws
reads these, and of the definition its type. `--laws` takes all laws of LAWS. Names are CRATE.File.name, or a last part that
exists once. Std, the toolchain's crates and the types of the code are left out.
"""
import glob, os, re, sys

LAWS = """
--but=pb_manifest.Document.manifest_of=ReadsManifests,DocumentsSayOne
--but=pb_workspace.Loaded.workspace_of=WorkspacesAreRead,WorkspacesAreOne
--but=pb_workspace.Globs.matches=DecidesGlobs
--but=pb_command.Command.command_of=CompilesOfPlans,RunsOfPlans
--but=pb_command_reply.Answers.answered_of=AnswersSay
--but=pb_command.Judge.judge=InputsAreJudged
--but=pb_directive.Directives.line_directives=LinesSay
--but=pb_directive.DepInfo.line_info=InfosSay
--but=pb_workspace_types.Settled.IsSettled=AllAreSettled
--but=pb_record.Parts.ReadsAs=HasOneReading,HasReading
--but=pb_store_soundness.Sound.Sound=NothingIsSound,OutsideLaw
--but=pb_feature_types.Features.is_active=FeaturesAreOne
--but=pb_feature_types.Features.features_at=FeaturesAreOne
--but=pb_feature_types.Features.is_enabled=FeaturesAreOne
--but=pb_profile.Line.line_of=LinesAreThese
--but=pb_unit.Units.needs=NeedsAreThese
--but=pb_command_types.Targets.crate_name_of=UnitsMakeTargets,PlansHaveTargets
--but=pb_command_types.Targets.crate_types=UnitsMakeTargets,PlansHaveTargets
--but=pb_command_types.Targets.source_by=UnitsMakeTargets,PlansHaveTargets
--but=pb_command_types.Targets.made_file_of=UnitsMakeTargets,PlansHaveTargets,RunsMakeNone
--but=pb_command_types.Targets.dep_info_of=UnitsMakeTargets,PlansHaveTargets,RunsMakeNone
--but=pb_message.Message.lines_of=LinesFollow,MessagesAreObjects,DiagnosticsAreCopied
--but=pb_message.Message.line_of=LinesFollow
--but=pb_message.Message.finish_line=EndsAreObjects
--but=pb_message.Diagnostics.diagnostics_of=CompilersSay
--but=pb_message.Diagnostics.plain_lines_of=CompilersSay
--but=pb_record.Commands.command_of=AskedPartForPart
--but=pb_record.Commands.AsksAs=AskedPartForPart
--but=pb_store.Asking.IsFirstName=FirstNameIsLeast
--but=pb_build_turns.Rows.summary_of=SummariesSay
--but=pb_build.Headline.ByFirst=BuildsGoInTurn
--but=pb_message_units.Telling.unit_lines=LinesAreTold
--but=pb_message_units.Telling.good_messages=GoodUnitsTell
--but=pb_message_units.Telling.bad_messages=BadUnitsTell
--but=pb_message_units.Telling.said_by=BadUnitsTell
--but=pb_run.Outcome.outcomes=OutcomesAreThese
--but=pb_profile.Settings.settings_along=SettingsAreThese
--but=pb_feature.Faults.package_fault=PackagesAreAtFault
--but=pb_command_types.Targets.is_library=KindsAreThese
--but=pb_command_types.Targets.is_script=KindsAreThese
--but=pb_command_types.Targets.is_run=KindsAreThese
--but=pb_command_types.Targets.folder_of=FoldersArePackages
--but=pb_command_types.Targets.said_at=RunsSay
--but=pb_unit.Units.role_of=RolesAreThese
--but=pb_unit.Units.name_at=PackagesHaveNames
--but=pb_unit.Units.has_library=PackagesHaveNames
--but=pb_unit.Plan.above=LevelsAreThese
--but=pb_unit.Plan.level_at=LevelsAreThese
--but=pb_directive.Directives.directives_of=OutputsAreRead
--but=pb_directive.DepInfo.dep_info_of=InfosAreRead
--but=pb_command_environment.Pairs.triple_of=HostsComeFirst
--but=pb_build.Environment.environment_of=EnvironmentsAreThese
--but=pb_build.Result.toolchain_of=ToolchainsAreSaid
--but=pb_run_flight.Table.is_untouched=StatesAreThese
--but=pb_run_flight.Table.is_bad=StatesAreThese
--but=pb_run_flight.Table.is_good_at=StatesAreThese
--but=pb_run_flight.Table.count_due=EndsAreThese
--but=pb_run_flight.Table.is_finished=EndsAreThese
--but=pb_place_types.Paths.is_below=BelowGoesOn
--but=pb_place_types.CallsInTurn.own_fault=CallsAreTold
--but=pb_place_types.Counts.name_given=CallsAreTold
--but=pb_place_types.Counts.named_in=CallsAreTold
--but=pb_workspace_package.Between.text_between=TextsLeadBetween
--but=pb_workspace.MemberFolders.folders_meant=TextsMeanFolders
--but=pb_workspace.Members.parts_match=PartsMatchNames
--but=pb_store.Folder.next_in=NextIsAbove
--but=pb_profile.Line.checked_line=LinesAreChecked
--but=pb_directive.Lines.trimmed=LinesAreTrimmed
--but=pb_place_types.Paths.path_of=PathsAreSpelled
--but=pb_run.UnitSteps.key_at=RowsAreThese
--but=pb_build_turns.Rows.is_bad=RowsAreThese
--but=pb_store_soundness.Records.record_at=RecordsCount
--but=pb_store_soundness.Records.number_of=RecordsAreNumbered
--but=pb_store_soundness.Reuse.number_if=RecordsAreNumbered
--but=pb_store.Folder.lacks_number=RecordsAreNumbered
--but=pb_store.Differences.FirstDifference=DifferencesAreThese
""".split()

# the rows of units, their lines and summary; the project and the version of the compiler; refusals, and the finish line
FROM_NOTHING = "Rows.rows_of Rows.said_from Rows.summary_of Planning.IsProject Result.toolchain_of Ending.NoneBegan Ending.Closes".split()

top = os.path.dirname(os.path.dirname(os.path.dirname(os.path.abspath(__file__))))
HEAD = re.compile(r"^(?:abbrev |unfoldable |opaque )*(?:pub )?(?:(record|data|ruleset) )?(\S+)(?: |$)")
WORD = re.compile(r"[^\s(){}\[\],;.:=→λ≡×∷]+")


def read(path):
    """The imports of a file, and of each definition its lines."""
    crate, module = path.split("/crates/")[1].split("/")[0], os.path.basename(path)[:-5]
    names, modules, found, last = {}, {}, {}, None
    for line in open(path, encoding="utf-8"):
        line = line.rstrip("\n")
        it = re.match(r"use Rattle\.(\w+)\.specs\.([\w.]+?)(?:\.\{(.*)\}| as (\w+))$", line)
        if it:
            whole = f"{it[1]}.{it[2]}"
            if it[4]:
                modules[it[4]] = whole
            for part in (it[3] or "").split(","):
                part = part.strip().split(" as ")
                if part[0]:
                    names[part[-1]] = f"{whole}.{part[0]}"
            continue
        if not line.strip():
            last = None
        elif line.lstrip().startswith("--") or line.startswith(("use ", "pub mod", "mod ")):
            continue
        elif line[0] != " ":
            head = HEAD.match(line)
            name = head[2]
            if last is None or (name != last and (head[1] or line.startswith(("abbrev", "unfoldable", "pub", "opaque")))):
                last = name
                found.setdefault(f"{crate}.{module}.{name}", [])
            found[f"{crate}.{module}.{last}"].append(line)
        elif last:
            found[f"{crate}.{module}.{last}"].append(line)
    return crate, module, names, modules, found


lines, uses = {}, {}
files = [read(path) for path in sorted(glob.glob(f"{top}/crates/*/specs/*.antt"))]
for _, _, _, _, found in files:
    lines.update(found)
for crate, module, names, modules, found in files:
    for name, body in found.items():
        uses[name] = set()
        text = "\n".join(body)
        for it in re.finditer(r"(\w+)\.(\w+)", text):
            if it[1] in modules:
                uses[name].add(f"{modules[it[1]]}.{it[2]}")
        for word in set(WORD.findall(text)):
            for whole in (names.get(word), f"{crate}.{module}.{word}"):
                if whole in lines and whole != name:
                    uses[name].add(whole)
        uses[name] &= set(lines)


def named(text):
    if text in lines:
        return text
    found = [it for it in lines if it.endswith("." + text)]
    if len(found) != 1:
        sys.exit(f"{text}: {'there is none' if not found else 'which of ' + ', '.join(found)}")
    return found[0]


def below(starts, instead):
    """All on which some definitions stand, themselves among them."""
    seen, todo = set(), list(starts)
    while todo:
        it = todo.pop()
        if it in seen:
            continue
        seen.add(it)
        todo += instead.get(it, uses[it])
    return seen


def length(it, stood_for):
    """The lines of a definition; of one that laws stand for, those of its type, which is all that is read of it."""
    if it in stood_for and HEAD.match(lines[it][0])[1] == "record":
        return 1
    body = [n for n, line in enumerate(lines[it]) if line.startswith(it.split(".")[-1] + " ")]
    return body[0] if it in stood_for and body and body[0] else len(lines[it])


def count(seen, title, stood_for=()):
    by = {}
    for it in seen:
        n, k = by.get(it.split(".")[0], (0, 0))
        by[it.split(".")[0]] = (n + 1, k + length(it, stood_for))
    print(f"{title}: {len(seen)} definitions, {sum(k for _, k in by.values())} lines")
    print("  " + ", ".join(f"{crate} {k}" for crate, (_, k) in sorted(by.items(), key=lambda it: -it[1][1])))


words = [it for it in sys.argv[1:] if not it.startswith("--")]
instead = {}
for it in sys.argv[1:] + (LAWS if "--laws" in sys.argv else []):
    if it.startswith("--but="):
        old, _, new = it[6:].partition("=")
        instead[named(old)] = {named(part) for part in new.split(",") if part}
starts = [named(it) for it in words] or [
    named("pb_build.Headline.Headline"), named("pb_build.Headline.ByFirst"), named("pb_record.Parts.FindsAsReading")]
stops = {old: set() for old in instead}


def told(title, seen, stops):
    """Counts definitions; with `--beyond` those on which a build from nothing does not stand, each with its lines."""
    if "--beyond" not in sys.argv:
        return count(seen, title, stops)
    nothing = [named(it) for it in FROM_NOTHING]
    said = set().union(*[instead[it] for it in below(nothing, {}) & set(stops)])
    left = seen - below([*nothing, *said], stops)
    count(left, f"{title}, beyond a build from nothing", stops)
    for crate in sorted({it.split(".")[0] for it in left}):
        own = sorted(it for it in left if it.startswith(crate + "."))
        print(f"  {crate}: " + ", ".join(f"{it.split('.', 1)[1]} {length(it, stops)}" for it in own))


told("with all definitions", below(starts, {}), {})
if instead:
    told("with the laws in their place", below(starts, instead), stops)
