"""Tokens, an authority and a certificate for the trial of ordup-node, made in a folder."""

import secrets
import ssl
import subprocess
from ipaddress import ip_address
from pathlib import Path

from addresses import HOSTS, address_of

ROLES = ("client", "site", "operator")
# For so many days a certificate is good usually.
DAYS = 60


class Safety:
    def __init__(self, folder: Path) -> None:
        self.folder = folder
        folder.mkdir()
        self.tokens = {role: secrets.token_hex(16) for role in ROLES}
        for role, token in self.tokens.items():
            (folder / role).write_text(token + "\n")
        self.openssl("req", "-x509", *self.new_key("authority-key"), "-days", str(DAYS), "-subj", "/CN=authority", "-out", self.authority)
        self.openssl("req", *self.new_key("key"), "-subj", "/CN=ordup", "-out", self.path("request"))
        names = ",".join(f"IP:{ip_address(name)}" for name in ["127.0.0.1", *map(address_of, HOSTS)])
        (folder / "names").write_text(f"subjectAltName={names}\n")
        self.renew()
        self.context = ssl.create_default_context(cafile=self.authority)

    def path(self, name: str) -> str:
        return str(self.folder / name)

    def openssl(self, *words: str) -> None:
        subprocess.run(["openssl", *words], check=True, stderr=subprocess.DEVNULL)

    def new_key(self, name: str) -> list[str]:
        return ["-newkey", "ec", "-pkeyopt", "ec_paramgen_curve:prime256v1", "-nodes", "-keyout", self.path(name)]

    def renew(self, days: int = DAYS) -> None:
        """Makes the certificate anew, in the place of the one that there is."""
        self.openssl("x509", "-req", "-in", self.path("request"), "-CA", self.authority, "-CAkey", self.path("authority-key"),
                     "-CAcreateserial", "-days", str(days), "-extfile", self.path("names"), "-out", self.path("new"))
        Path(self.path("new")).rename(self.certificate)

    @property
    def authority(self) -> str:
        return self.path("authority")

    @property
    def certificate(self) -> str:
        return self.path("certificate")

    def words_of_server(self) -> list[str]:
        tokens = [word for role in ROLES for word in (f"--{role}-tokens", self.path(role))]
        return ["--certificate", self.certificate, "--key", self.path("key"), *tokens, "--authority", self.authority]

    def words_of_site(self) -> list[str]:
        """With which it asks primaries."""
        return ["--token", self.path("site")]
