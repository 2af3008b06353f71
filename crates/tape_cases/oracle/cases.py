# Writes the tapes of the table (stdin) and what they list as (stdout), by a reading of the format of its own.
# Run it in the folder above.
import struct
def head(k,b,n,m): return bytes([1,k])+struct.pack(">IHI",b,n,m)
def two(k,a,b): return bytes([k])+struct.pack(">HH",a,b)
def lane(k,a,b,c,t): return bytes([k])+struct.pack(">HHiI",a,b,c,t)
NAMES={1:"head",2:"link",3:"plan-end",4:"post",5:"shut",6:"try",7:"keep",8:"withdraw",9:"quote",10:"route"}
LONG={1:11,2:4,3:0,4:12,5:4,6:12,7:0,8:0,9:4,10:4}
def listing(t):
    p=0; out=[]
    while p<len(t):
        k=t[p]
        if k not in NAMES: out.append(f"fault 21 at {p}: unknown kind of record"); return out,False
        b=t[p+1:p+1+LONG[k]]
        if len(b)<LONG[k]: out.append(f"fault 22 at {p}: cut short"); return out,False
        s=NAMES[k]
        if k==1: s+=" rates %d book %d terminals %d meter %d"%struct.unpack(">BIHI",b)
        elif k in(4,6): s+=" %d %d cents %d tonnes %d"%struct.unpack(">HHiI",b)
        elif LONG[k]==4: s+=" %d %d"%struct.unpack(">HH",b)
        out.append(f"{p}: {s}"); p+=1+LONG[k]
    out.append(f"# end at {p}"); return out,True
whole={1:head(2,0x01020304,0x0506,0x0708090a),2:two(2,0x0102,0x0304),3:b"\x03",4:lane(4,1,2,-2,3),5:two(5,255,256),6:lane(6,0xfffe,0x8000,-2147483648,0x80000000),7:b"\x07",8:b"\x08",9:two(9,32767,32768),10:two(10,0,65535)}
cases=[b""]
cases+=[bytes([b]) for b in (0,1,2,3,7,10,11,12,32,127,128,254,255)]
for k,r in whole.items():
    for n in range(len(r)+1): cases.append(r[:n])
for k,r in whole.items():
    for n in range(1,len(r)): cases.append(b"\x07"+r[:n])
for c in (-2147483648,-2147483647,-65536,-256,-1,0,1,255,256,2147483647): cases.append(lane(4,0,1,c,0))
for t in (0,1,255,256,65535,65536,2147483648,4294967295): cases.append(lane(6,0,1,0,t))
bad=b"\x0b"
cases+=[bad+whole[2],whole[2]+bad+whole[9],whole[2]+whole[9]+bad,bad*3,whole[4]+b"\x00",b"\x00"+whole[4],whole[4][:-1]+bad]
cases.append(b"".join(whole.values())); cases.append(b"".join(whole.values())*2)
seen=[]
for c in cases:
    if c not in seen: seen.append(c)
out=[]
for c in seen:
    l,ok=listing(c); out.append("> "+c.hex()); out+=l
    if ok: out.append("same")
open("stdin","w").write("".join(c.hex()+"\n" for c in seen))
open("stdout","w").write("".join(x+"\n" for x in out))
