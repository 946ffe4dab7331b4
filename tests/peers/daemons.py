"""rsyslog and syslog-ng, in the foreground with files and ports of their own."""
import os
import re
import shutil
import signal
import socket
import subprocess

from lib.loopback import HERE, NEVER, until_bound

ZONE = "Europe/Berlin"  # the daemons' own time zone, which no record has in winter


class Daemon:
    """A daemon in the foreground, with a configuration of its own."""

    def __init__(self, words, environment=None):
        self.words = words
        self.environment = {**os.environ, "TZ": ZONE, **(environment or {})}

    def start(self, folder, text, port, kind=socket.SOCK_STREAM):
        """Starts it and waits until it has the port, if there is one."""
        (folder / "conf").write_text(text)
        self.log = open(folder / "log", "w+")
        self.process = subprocess.Popen([*self.words, *self.own(folder)], env=self.environment, stdin=subprocess.DEVNULL,
                                        stdout=self.log, stderr=self.log)
        if port:
            until_bound(kind, port, lambda: self.process.poll() is not None)

    def stop(self):
        self.process.send_signal(signal.SIGTERM)
        try:
            self.process.wait(NEVER)
        except subprocess.TimeoutExpired:
            self.process.kill()
            self.process.wait()
        self.log.seek(0)
        return self.log.read()


class Rsyslog(Daemon):
    name = "rsyslog"

    def own(self, folder):
        return ["-n", "-f", str(folder / "conf"), "-i", str(folder / "pid")]

    def version(self):
        told = subprocess.run([self.words[0], "-v"], capture_output=True, text=True).stdout
        return "rsyslog " + told.split()[1]

    def forwarding(self, variant, folder, port, ways):
        """A configuration that forwards what comes by TCP, or stands in the file, to the ports of each way."""
        template = variant.template
        actions = "".join(
            f'  action(type="omfwd" target="{HERE}" port="{one}" template="{template}" '
            + ('protocol="udp")\n' if way == "udp" else
               'protocol="tcp" TCP_Framing="%s")\n' % ("octet-counted" if way == "counted" else "traditional"))
            for way, ports in ways.items() for one in ports)
        source = (f'type="imtcp" address="{HERE}" port="{port}"' if port else f'type="imfile" tag="file" file="{folder}/records"')
        return (f'global(workDirectory="{folder}" {variant.settings})\nmodule(load="imtcp")\nmodule(load="imfile")\n'
                'template(name="raw" type="string" string="%rawmsg%")\n'
                'template(name="fields" type="string" string="<%PRI%>1 %TIMESTAMP:::date-rfc3339% %HOSTNAME% %APP-NAME% '
                '%PROCID% %MSGID% %STRUCTURED-DATA% %msg%")\n'
                f'ruleset(name="forward") {{\n{actions}}}\ninput({source} ruleset="forward")\n')


class SyslogNg(Daemon):
    name = "syslog-ng"

    def own(self, folder):
        return ["-F", "--no-caps", "-f", str(folder / "conf"), "-p", str(folder / "pid"), "-R", str(folder / "persist"),
                "-c", str(folder / "control")]

    def version(self):
        told = subprocess.run([*self.words, "--version"], env=self.environment, capture_output=True, text=True).stdout
        return "syslog-ng " + re.search(r"\(([\d.]+)\)", told).group(1)

    def forwarding(self, variant, folder, port, ways):
        source = f'ip("{HERE}") port({port})' if port else f'"{folder}/records"'
        ends = " ".join("destination { %s; };" % variant.template[way].replace("PORT", f'"{HERE}" port({one})')
                        for way, ports in ways.items() for one in ports)
        release = self.version().split()[1].rpartition(".")[0]
        return (f"@version: {release}\noptions {{ stats-freq(0); {variant.settings}}};\n"
                f"source s {{ {variant.source.replace('FROM', source)}; }};\nlog {{ source(s); {ends} flags(flow-control); }};\n")


def found(name, tools):
    """The path of a tool, in the unpacked packages or on the path, or None."""
    for folder in ([tools / "usr/sbin", tools / "usr/bin"] if tools else []):
        if (folder / name).exists():
            return str(folder / name), tools
    return shutil.which(name, path=os.environ.get("PATH", "") + ":/usr/sbin:/sbin"), None


def daemons(tools):
    """The daemons that are there; a line for each that is not."""
    path, unpacked = found("rsyslogd", tools)
    if path:
        modules = next(unpacked.glob("usr/lib/*/rsyslog")) if unpacked else None
        yield Rsyslog([path, *(["-M", str(modules)] if modules else [])])
    else:
        print("rsyslogd is not here: skipped")
    path, unpacked = found("syslog-ng", tools)
    if path:
        libraries = unpacked / "usr/lib/syslog-ng" if unpacked else None
        modules = next(libraries.glob("[0-9]*")) if unpacked else None
        yield SyslogNg([path, *([f"--module-path={modules}"] if modules else [])],
                       {"LD_LIBRARY_PATH": str(libraries)} if libraries else {})
    else:
        print("syslog-ng is not here: skipped")
