"""Programs that a check needs and a system may not have: where one is missing, the check says in a line what it
leaves out and how the program is had, and the rest is checked.
"""
import shutil

# The package of Debian that has a program, where it is called otherwise.
PACKAGES = {
    "stunnel": "stunnel4",
    "mosquitto_pub": "mosquitto-clients",
    "mosquitto_sub": "mosquitto-clients",
    "promtool": "prometheus",
    "systemd-analyze": "systemd",
    "dpkg-deb": "dpkg",
}
# Where programs stand that a user's path may leave out.
SYSTEM = "/usr/local/sbin:/usr/sbin:/sbin"


def path_of(*names):
    """The path of the first of these programs that is there, or None."""
    found = (shutil.which(name) or shutil.which(name, path=SYSTEM) for name in names)
    return next(filter(None, found), None)


def are_wanting(what, *programs):
    """Whether one of these programs isn't there; then says so, with what isn't checked."""
    packages = {PACKAGES.get(name, name): None for name in programs if path_of(name) is None}
    if packages:
        print(f"not run: {what}: apt-get install {' '.join(packages)}", flush=True)
    return bool(packages)
