# The schema of sheets/bed.sheet. The sheet's offsets, tags and sizes are those that `capnp compile -ocapnp` prints.
@0xd1e5f3c2a4b69788;

enum Status {
  free @0;
  taken @1;
  reserved @2;
}

struct Bed {
  isFree @0 :Bool = true;
  isClean @1 :Bool;
  rank @2 :Int8 = -5;
  floor @3 :Int16 = -1;
  room @4 :Int32 = 2147483647;
  serial @5 :Int64 = -9223372036854775808;
  side @6 :UInt8 = 255;
  number @7 :UInt16;
  area @8 :UInt32 = 7;
  code @9 :UInt64 = 18446744073709551615;
  weight @10 :Float32 = 1.5;
  tilt @11 :Float64 = -0.0;
  height @12 :Float64 = -2.5;
  status @13 :Status = reserved;
  before @14 :Status;
  name @15 :Text = "bed";
  label @16 :Text;
  marks @17 :List(UInt16);
  slope @29 :Float32 = -0.0;
  after @30 :Status = free;

  union {
    empty @18 :Void;
    patient @19 :UInt32;
    since @20 :Int64 = -1;
    note @21 :Text;
    next @22 :Status = taken;
    isHeld @23 :Bool = true;
  }

  plan :group {
    start @24 :UInt64 = 3;
    remark @25 :Text;
    kind :union {
      short @26 :Bool = true;
      long @27 :Float32;
      other @28 :Int8 = 12;
    }
  }
}
