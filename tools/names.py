"""OSGi's names of the numbers in replies: states of bundles, and codes of events."""
STATES = {"1": "uninstalled", "2": "installed", "4": "resolved", "8": "starting", "16": "stopping", "32": "active"}
EVENTS = {
    "service": {"1": "REGISTERED", "2": "MODIFIED", "4": "UNREGISTERING", "8": "MODIFIED_ENDMATCH"},
    "bundle": {"1": "INSTALLED", "2": "STARTED", "4": "STOPPED", "8": "UPDATED", "16": "UNINSTALLED", "32": "RESOLVED",
               "64": "UNRESOLVED", "128": "STARTING", "256": "STOPPING", "512": "LAZY_ACTIVATION"},
    "framework": {"4": "PACKAGES_REFRESHED", "8": "STARTLEVEL_CHANGED"}}


def in_words(reply):
    """What a number of a reply stands for; no text if it has none, or is a script's own text that reads otherwise."""
    words = reply.split()
    if words[:1] == ["bundle"] and len(words) == 6:
        return STATES.get(words[2], "")
    if words[:1] == ["event"] and len(words) in (4, 5):
        return EVENTS.get(words[2], {}).get(words[3], "")
    return ""
