// What a client may write over the types of the package, with --strict.
import {fault, load, STATUSES, TEXTS, type FileType, type Linker, type Result} from "pslink";
import {openVolume, VolumeError, type Volume, type VolumeFile} from "pslink/volume";

async function linked(linker: Linker, bytes: Uint8Array): Promise<string> {
  const result: Result = await linker.link([{name: "host.code", bytes}]);
  if (result.done) return `${result.bytes.length} ${result.answer.segments} ${result.status}`;
  if (result.status === "trapped") return result.reason ?? "";
  return `${result.answer?.about} ${result.fault ?? result.status}`;
}

async function said(linker: Linker, bytes: Uint8Array): Promise<string | null> {
  const report = await linker.text("check", [{bytes}], {json: true});
  const units = await linker.units("wanted", [{bytes}]);
  const type: Result<FileType> = await linker.fileType({bytes});
  if (!report.done || !units.done || !type.done) return null;
  return report.text + units.names.join() + (type.order ?? type.contents ?? type.bytes.length);
}

const sizes = (volume: Volume): number[] => volume.files.map((file: VolumeFile) => file.size);

function replaced(image: ArrayBuffer, bytes: Uint8Array): Uint8Array {
  const volume = openVolume(image);
  if (volume.flaws.length) throw new VolumeError(volume.flaws.join());
  return volume.put("DEMO.CODE", bytes, {date: volume.files[0]?.date ?? null}).image;
}

export const all = [linked, said, sizes, replaced, load, TEXTS.map, STATUSES.trapped, fault(13)?.remedy];
