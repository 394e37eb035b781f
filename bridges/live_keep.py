"""A folder that keeps what a live run was told and left, as `ug_main audit` reads it (docs/AUDIT.md)."""
import os
import subprocess


class Keep:
    def __init__(self, folder, config):
        os.makedirs(folder, exist_ok=True)
        if os.listdir(folder):
            raise OSError(f"{folder} isn't empty")
        self.folder = folder
        os.mkdir(self.place("sessions"))
        with open(self.place("config.toml"), "wb") as file:
            file.write(config)
        self.events = open(self.place("events"), "wb", buffering=0)
        self.report = open(self.place("report"), "wb", buffering=0)

    def place(self, name):
        return os.path.join(self.folder, name)

    def session(self, name):
        return open(os.path.join(self.place("sessions"), name), "wb", buffering=0)

    def close(self):
        self.events.close()
        self.report.close()

    def audit(self, program):
        """Judges what was kept. Gives the status and what the last line says; the certificate is kept too."""
        words = [program, "audit", *map(self.place, ["config.toml", "events", "report", "sessions"])]
        with open(self.place("certificate"), "wb") as file:
            status = subprocess.run(words, stdout=file, check=False).returncode
        with open(self.place("certificate"), encoding="utf-8") as file:
            lines = file.read().splitlines()
        sessions = sum(line.startswith("session ") for line in lines)
        return status, f"{sessions} sessions are right" if status == 0 else (lines or ["no line"])[-1]
