"""The sites of many plants on a machine, as `hilpoven setup` writes them."""
from typing import Any
import pathlib
import re
import subprocess
import sys

import pytest
from conftest import ROOT

sys.path.insert(0, str(ROOT / "plant" / "src"))
from hilpoven.care.setup.machine import Machine  # noqa: E402
from hilpoven.care.setup.plan import Plan  # noqa: E402
from hilpoven.care.setup.site import site_of  # noqa: E402

PLANTS = {"acme": ("acme.example.com", 801), "bolt": ("bolt.example.org", 802)}
LOGS = {"acme": "toll.log", "bolt": "toll-bolt.log"}


@pytest.fixture
def sites(tmp_path: pathlib.Path) -> Any:
    """The folder of nginx's settings, with the sites of two plants."""
    for folder in ("conf.d", "sites-enabled", "ssl", "logs", "temporary"):
        (tmp_path / folder).mkdir()
    for name, (host, port) in PLANTS.items():
        site = site_of(Machine(nginx=str(tmp_path)), Plan(name, host, "/etc/ssl/x.pem", "/etc/ssl/private/x.key"), port)
        assert not site.shared
        for file in (site.machine, site.office):
            file.put()
    return tmp_path


def test_each_plant_has_its_own_name_and_port_and_the_rest_stands_once(sites: pathlib.Path) -> None:
    common = (sites / "conf.d" / "00-toll.conf").read_text()
    zones = re.findall(r"limit_\w+_zone .* zone=(\w+):", common)
    assert sorted(zones) == ["toll", "toll_at_once", "toll_wrong_keys"] and "toll.example.com" not in common
    for name, (host, port) in PLANTS.items():
        text = (sites / "conf.d" / f"toll_{name}.conf").read_text()
        assert re.findall(r"server_name (.*);", text) == [host]
        assert set(re.findall(r"proxy_pass http://127\.0\.0\.1:(\d+)", text)) == {str(port)}
        assert "toll.example.com" not in text and "limit_req_zone" not in text
        logs = {re.sub(r".*/", "", log) for log in re.findall(r"access_log (\S+) toll", text)}
        assert logs == {LOGS[name], f"unauthenticated-{LOGS[name]}"}


def test_nginx_takes_the_sites_of_two_plants(sites: pathlib.Path) -> None:
    key, certificate = sites / "ssl" / "key.pem", sites / "ssl" / "certificate.pem"
    certify = "openssl req -x509 -newkey ec -pkeyopt ec_paramgen_curve:prime256v1 -nodes -days 2 -subj /CN=x"
    words: list[str | pathlib.Path] = [*certify.split(), "-keyout", key, "-out", certificate]
    subprocess.run(words, check=True, capture_output=True)
    for file in [*sites.glob("conf.d/*.conf"), *sites.glob("sites-enabled/*.conf")]:
        text = re.sub(r"(ssl_certificate_key) .*?;", rf"\1 {key};", file.read_text())
        text = re.sub(r"(ssl_certificate) .*?;", rf"\1 {certificate};", text)
        file.write_text(re.sub(r"(access_log|error_log) /\S+", rf"\1 {sites}/logs/log", text))
    (sites / "nginx.conf").write_text(
        f"error_log {sites}/logs/errors; pid {sites}/pid; events {{}} http {{ client_body_temp_path {sites}/temporary; "
        f"include {sites}/conf.d/*.conf; include {sites}/sites-enabled/*.conf; }}\n"
    )
    words = ["nginx", "-t", "-c", sites / "nginx.conf", "-e", sites / "logs" / "errors"]
    done = subprocess.run(words, capture_output=True, text=True)
    assert done.returncode == 0 and "successful" in done.stderr and "warn" not in done.stderr, done.stderr
