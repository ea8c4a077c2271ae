#!/bin/sh
# sh library/wheel.sh  packs library/ira.py and libira.so of one commit (build/packed.sh) as a wheel for pip, dist/ira-*.whl, with
# a fixture for pytest. It needs python3.
set -e
. build/packed.sh
[ -n "$pages" ] && [ -f $from/libira.so ] || { echo "$from/ has no libira.so with an ira.py of its commit: make lib" >&2; exit 1; }
version=$("$ira" version | sed 's/^ira \([^ ]*\) .*/\1/; s/-dev/.dev0/')
wheel=$room/wheel info=$room/wheel/ira-$version.dist-info
mkdir -p "$wheel/ira" "$info/licenses" dist
cp "$pages/library/ira.py" "$wheel/ira/__init__.py"
cp "$pages/library/ira_pytest.py" $from/libira.so "$wheel/ira"
cp "$pages/LICENSE-MIT" "$pages/LICENSE-APACHE" "$info/licenses"
cat > "$info/METADATA" <<END
Metadata-Version: 2.1
Name: ira
Version: $version
Summary: Audits logs of Itai-Rodeh leader elections on anonymous rings
License: MIT OR Apache-2.0
Requires-Python: >=3.7
Description-Content-Type: text/markdown

END
cat "$pages/library/README.md" >> "$info/METADATA"
printf 'Wheel-Version: 1.0\nGenerator: ira\nRoot-Is-Purelib: false\nTag: py3-none-linux_x86_64\n' > "$info/WHEEL"
printf '[pytest11]\nira = ira.ira_pytest\n' > "$info/entry_points.txt"
python3 -B - "$wheel" "ira-$version" "dist/ira-$version-py3-none-linux_x86_64.whl" <<'END'
import base64, hashlib, os, sys, zipfile
wheel, name, made = sys.argv[1:]
names = sorted(os.path.relpath(os.path.join(at, it), wheel) for at, _, files in os.walk(wheel) for it in files)
record = f'{name}.dist-info/RECORD'
with zipfile.ZipFile(made, 'w', zipfile.ZIP_DEFLATED) as packed:
    def add(name, text):
        packed.writestr(zipfile.ZipInfo(name), text, zipfile.ZIP_DEFLATED)
    lines = ''
    for name in names:
        with open(os.path.join(wheel, name), 'rb') as file:
            text = file.read()
        add(name, text)
        digest = base64.urlsafe_b64encode(hashlib.sha256(text).digest()).decode().rstrip('=')
        lines += f'{name},sha256={digest},{len(text)}\n'
    add(record, f'{lines}{record},,\n')
print(made)
END
