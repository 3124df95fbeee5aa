"""The extension of VS Code as a file that the editor installs: a zip with editors/vscode and what is said of it."""

import io
import json
import zipfile
from xml.sax.saxutils import escape, quoteattr

from packaging.facts import TOP

FOLDER = TOP / "editors" / "vscode"
NAMESPACE = "http://schemas.microsoft.com/developer/vsx-schema/2011"
TYPES = """<?xml version="1.0" encoding="utf-8"?>
<Types xmlns="http://schemas.openxmlformats.org/package/2006/content-types">
  <Default Extension=".js" ContentType="application/javascript"/>
  <Default Extension=".json" ContentType="application/json"/>
  <Default Extension=".vsixmanifest" ContentType="text/xml"/>
</Types>
"""


def manifest_of(package):
    """Returns the manifest of an extension, by its package.json."""
    name, version, publisher = (quoteattr(package[it]) for it in ("name", "version", "publisher"))
    return f"""<?xml version="1.0" encoding="utf-8"?>
<PackageManifest Version="2.0.0" xmlns="{NAMESPACE}">
  <Metadata>
    <Identity Language="en-US" Id={name} Version={version} Publisher={publisher}/>
    <DisplayName>{escape(package["displayName"])}</DisplayName>
    <Description xml:space="preserve">{escape(package["description"])}</Description>
    <Categories>{escape(",".join(package["categories"]))}</Categories>
    <Properties>
      <Property Id="Microsoft.VisualStudio.Code.Engine" Value={quoteattr(package["engines"]["vscode"])}/>
    </Properties>
  </Metadata>
  <Installation>
    <InstallationTarget Id="Microsoft.VisualStudio.Code"/>
  </Installation>
  <Dependencies/>
  <Assets>
    <Asset Type="Microsoft.VisualStudio.Code.Manifest" Path="extension/package.json" Addressable="true"/>
  </Assets>
</PackageManifest>
"""


def extension_file(time):
    """Returns the bytes of the extension, whose files have one time."""
    package = json.loads((FOLDER / "package.json").read_text(encoding="utf-8"))
    files = {"[Content_Types].xml": TYPES.encode(), "extension.vsixmanifest": manifest_of(package).encode()}
    files.update((f"extension/{it.name}", it.read_bytes()) for it in sorted(FOLDER.iterdir()) if it.is_file())
    sink = io.BytesIO()
    with zipfile.ZipFile(sink, "w", zipfile.ZIP_DEFLATED, compresslevel=9) as archive:
        for name, content in files.items():
            entry = zipfile.ZipInfo(name, time.timetuple()[:6])
            entry.compress_type, entry.create_system, entry.external_attr = zipfile.ZIP_DEFLATED, 3, 0o644 << 16
            archive.writestr(entry, content)
    return sink.getvalue()
