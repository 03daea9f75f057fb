"""Digests of files, and that of a campaign, as the header of its result file has it."""
import hashlib
import pathlib

FORM = "fmeda-manifest 1"
INPUTS = ("netlist", "workload", "rates", "points")


def digest(text):
    return {"sha256": hashlib.sha256(text).hexdigest(), "bytes": len(text)}


def digest_of(name):
    try:
        return digest(pathlib.Path(name).read_bytes())
    except OSError as fault:
        return {"missing": fault.strerror}


def campaign_digest(names, options):
    """The digest in the header of the campaign's result file, made from the files and the settings (docs/campaigns.md)."""
    if any(kind not in names for kind in INPUTS):
        return None
    flips, pulses = options.get("--flips", "none"), options.get("--pulses", "none")
    ftti = int(options.get("--ftti", "0"))
    upsets = options.get("--upsets", "none")
    if upsets != "none":
        settings = f"fmeda-settings 3 {ftti} {upsets if '/' in upsets else upsets + '/1'} {pulses}\n"
    else:
        settings = f"fmeda-settings 1 {ftti} {flips}\n" if pulses == "none" else f"fmeda-settings 2 {ftti} {flips} {pulses}\n"
    text = settings + "".join(digest_of(names[kind]).get("sha256", "") + "\n" for kind in INPUTS)
    return hashlib.sha256(text.encode()).hexdigest()
