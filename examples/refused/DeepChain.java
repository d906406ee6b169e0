import javax.cache.processor.EntryProcessor;
import javax.cache.processor.MutableEntry;

/** A chain of calls that is 65 deep: process and 64 methods. */
public class DeepChain implements EntryProcessor<Long, Long, Object> {
    public Object process(MutableEntry<Long, Long> entry, Object... arguments) {
        return m1(entry.getValue());
    }

    static long m1(long x) { return m2(x); }
    static long m2(long x) { return m3(x); }
    static long m3(long x) { return m4(x); }
    static long m4(long x) { return m5(x); }
    static long m5(long x) { return m6(x); }
    static long m6(long x) { return m7(x); }
    static long m7(long x) { return m8(x); }
    static long m8(long x) { return m9(x); }
    static long m9(long x) { return m10(x); }
    static long m10(long x) { return m11(x); }
    static long m11(long x) { return m12(x); }
    static long m12(long x) { return m13(x); }
    static long m13(long x) { return m14(x); }
    static long m14(long x) { return m15(x); }
    static long m15(long x) { return m16(x); }
    static long m16(long x) { return m17(x); }
    static long m17(long x) { return m18(x); }
    static long m18(long x) { return m19(x); }
    static long m19(long x) { return m20(x); }
    static long m20(long x) { return m21(x); }
    static long m21(long x) { return m22(x); }
    static long m22(long x) { return m23(x); }
    static long m23(long x) { return m24(x); }
    static long m24(long x) { return m25(x); }
    static long m25(long x) { return m26(x); }
    static long m26(long x) { return m27(x); }
    static long m27(long x) { return m28(x); }
    static long m28(long x) { return m29(x); }
    static long m29(long x) { return m30(x); }
    static long m30(long x) { return m31(x); }
    static long m31(long x) { return m32(x); }
    static long m32(long x) { return m33(x); }
    static long m33(long x) { return m34(x); }
    static long m34(long x) { return m35(x); }
    static long m35(long x) { return m36(x); }
    static long m36(long x) { return m37(x); }
    static long m37(long x) { return m38(x); }
    static long m38(long x) { return m39(x); }
    static long m39(long x) { return m40(x); }
    static long m40(long x) { return m41(x); }
    static long m41(long x) { return m42(x); }
    static long m42(long x) { return m43(x); }
    static long m43(long x) { return m44(x); }
    static long m44(long x) { return m45(x); }
    static long m45(long x) { return m46(x); }
    static long m46(long x) { return m47(x); }
    static long m47(long x) { return m48(x); }
    static long m48(long x) { return m49(x); }
    static long m49(long x) { return m50(x); }
    static long m50(long x) { return m51(x); }
    static long m51(long x) { return m52(x); }
    static long m52(long x) { return m53(x); }
    static long m53(long x) { return m54(x); }
    static long m54(long x) { return m55(x); }
    static long m55(long x) { return m56(x); }
    static long m56(long x) { return m57(x); }
    static long m57(long x) { return m58(x); }
    static long m58(long x) { return m59(x); }
    static long m59(long x) { return m60(x); }
    static long m60(long x) { return m61(x); }
    static long m61(long x) { return m62(x); }
    static long m62(long x) { return m63(x); }
    static long m63(long x) { return m64(x); }
    static long m64(long x) { return x; }
}
