"""stack.py ARCHIVE: the bound of each call's stack (bench/stackuse.py) against its limit, in bytes. A call that recurses, or calls what is
not in the archive but memcpy, memmove and memset, has no bound and fails."""
import pathlib
import sys

sys.path.insert(0, str(pathlib.Path(__file__).resolve().parents[2] / "bench"))
import stackuse

# What is to be under which limit. The digest's own is without the C interface, as the gateway calls it.
LIMITS = {
    512: ["sha256::digest"],
    1024: ["qt_sha256_digest", "qt_sha256_digest_joined", "qt_labels_tag", "qt_labels_matches", "qt_labels_height", "qt_times_place"],
    2048: ["qt_gateway_check", "qt_gateway_save", "qt_gateway_load", "qt_filer_file"],
    9216: ["qt_store_check", "qt_store_prove", "qt_store_apply", "qt_shapes_shape", "qt_jointstore_prove"],
    12288: ["qt_jointgateway_check"],
}


def main(archive):
    failed = 0
    try:
        bounds = stackuse.bounds([archive], [name for names in LIMITS.values() for name in names])
    except KeyError as name:
        print(f"{archive} has no function {name}\n0 passed, 1 failed")
        return 1
    for limit, names in LIMITS.items():
        for name in names:
            _, total, lost, way = bounds[name]
            lost -= {"memcpy", "memmove", "memset"}
            if lost or total >= limit:
                failed += 1
                print(f"{name}: {total} bytes, to be under {limit}: " + ", ".join(f"{f} {n}" for f, n in way))
                print("".join(f"    no bound for {call}\n" for call in sorted(lost)), end="")
    print(f"{len(bounds) - failed} passed, {failed} failed")
    return failed != 0


sys.exit(main(sys.argv[1]))
