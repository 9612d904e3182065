"""The table itself as the judge of a history: `plc run` over the scans that clients saw and machines released, in one
controller."""
import json
import subprocess

from checker import all_scans
from program import TEXTS, TOLD
from traces import outputs_of


def commands(scans, images, moments):
    """The list of commands that come to these outputs: each scan by its inputs and its moment, if that is known, and
    changes between them."""
    text, moment, found = TEXTS[0], 0, []
    for outputs in scans:
        if outputs.text != text:
            text = outputs.text
            found.append({'change': images[text]})
        bits = [2] if outputs.bits & TOLD else []
        moment = moments.get(outputs.count, moment)
        found.append({'scan': {'ix': bits, 'iw': [[0, outputs.word]], 'moment': moment}})
    return found


def judge(history, group, images):
    """How many scans, from the first on, one controller was asked for; how many releases of traces are among them; and
    what has other outputs there, if anything."""
    scans, releases = all_scans(history), {it.outputs().count: it for it in history.releases}
    moments = {count: it.moment for count, it in releases.items() if it.moment is not None}
    path = group.path('commands.json')
    with open(path, 'w') as file:
        json.dump(commands(scans, images, moments), file)
    told = subprocess.run([group.plc, 'run', group.source, path], capture_output=True, text=True, check=True).stdout
    lines = [line for line in told.split('\n') if line.startswith('outputs ')]
    held = [(releases[scan.count].line, line) for scan, line in zip(scans, lines) if scan.count in releases]
    if len(lines) != len(scans):
        return len(scans), len(held), f'{len(lines)} scans released outputs of {len(scans)}'
    held_all = held + [(scan, outputs_of(line)) for scan, line in zip(scans, lines)]
    return len(scans), len(held), next((f'{ours} and {its}' for ours, its in held_all if ours != its), None)
