"""Keys that the openssl command draws, once for all tests, and a PostgreSQL server."""

from __future__ import annotations

import importlib
import importlib.util
import pathlib
from typing import Any, Iterator

import pytest
from support import Keys, openssl


@pytest.fixture(scope="session")
def keys(tmp_path_factory: pytest.TempPathFactory) -> Keys:
    """RSA keys of several lengths, one for RSASSA-PSS alone, one on a curve, and an encrypted one, in a folder."""
    folder: pathlib.Path = tmp_path_factory.mktemp("keys")
    for bits in (1024, 2048, 4096):
        openssl("genpkey", "-algorithm", "RSA", "-pkeyopt", f"rsa_keygen_bits:{bits}", "-out", folder / f"{bits}.pem")
    openssl("genpkey", "-algorithm", "RSA", "-pkeyopt", "rsa_keygen_bits:2048", "-out", folder / "other.pem")
    openssl("genpkey", "-algorithm", "RSA-PSS", "-pkeyopt", "rsa_keygen_bits:2048", "-out", folder / "pss.pem")
    openssl("genpkey", "-algorithm", "EC", "-pkeyopt", "ec_paramgen_curve:P-256", "-out", folder / "curve.pem")
    openssl("pkey", "-in", folder / "2048.pem", "-aes256", "-passout", "pass:open sesame", "-out", folder / "encrypted.pem")
    for name in ("1024", "2048", "4096", "other", "pss", "curve"):
        openssl("pkey", "-in", folder / f"{name}.pem", "-pubout", "-out", folder / f"{name}-public.pem")
    return Keys(folder)


@pytest.fixture(scope="session")
def postgres() -> Iterator[Any]:
    """A PostgreSQL server that runs, where its programs and psycopg2 are there: `server/clusters.py`."""
    clusters = importlib.import_module("clusters")
    if not clusters.is_there() or importlib.util.find_spec("psycopg2") is None:
        pytest.skip("there is no PostgreSQL, or no psycopg2")
    cluster = clusters.Cluster()
    yield cluster
    cluster.remove()
