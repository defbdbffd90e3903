import java.io.ByteArrayInputStream;
import java.nio.charset.StandardCharsets;
import java.nio.file.Files;
import java.nio.file.Path;
import java.util.LinkedHashMap;
import java.util.List;
import java.util.Map;
import java.util.function.IntUnaryOperator;
import java.util.regex.Pattern;
import javax.xml.parsers.SAXParser;
import javax.xml.parsers.SAXParserFactory;
import org.xml.sax.SAXException;
import org.xml.sax.ext.DefaultHandler2;

/**
 * What OpenJDK's parser makes of the texts of tests/declarations.txt in XML 1.1; tests/declarations_1.1.txt is its output
 * (java tests/JdkDeclarations.java tests/declarations.txt).
 *
 * A line for each text, in their order: + where the parser takes <!DOCTYPE r [TEXT]><r/> and - where it does not; why document 02 has another
 * answer, or - where it has this one; and the names and replacement texts, as there, or = where they are those of XML 1.0; with TABs between.
 * The reasons: char, a character outside Char, or a raw RestrictedChar, U+007F among them, which the parser refuses and we take (its answer is that
 * on characters for private use in their places); wide, a raw character above U+FFFF in a value, which the parser takes and then loses (its
 * answer is that on others in its place); other, something else than a declaration of a general entity's text, which it takes and we refuse.
 */
class JdkDeclarations {
    private static final Pattern NUMBER = Pattern.compile("&#([0-9]+);");
    private static final Pattern LITERAL = Pattern.compile("'[^']*'|\"[^\"]*\"");
    /** The characters above U+FFFF that stand in values here. */
    private static final List<Integer> WIDE = List.of(0x1D11E, 0x10000, 0x10001, 0xEFFFE, 0xEFFFF, 0xF0000, 0xF0001, 0x10FFFE, 0x10FFFF);

    public static void main(String[] arguments) throws Exception {
        System.out.println("# OpenJDK's verdict in XML 1.1, the reason, names and replacement texts: tests/JdkDeclarations.java says more.");
        StringBuilder lines = new StringBuilder();
        for (String line : Files.readAllLines(Path.of(arguments[0]))) {
            if (!line.startsWith("#")) {
                String[] fields = line.split("\t", -1);
                lines.append(answer(unescaped(fields[3]), fields[4])).append('\n');
            }
        }
        System.out.print(lines);
    }

    private static String answer(String text, String older) throws Exception {
        Declarations found = read(text);
        if (found != null && found.others) {
            return "+\tother\t";
        }
        if (found != null) {
            Declarations narrow = read(each(text, JdkDeclarations::toNarrow));
            boolean isLost = narrow != null && !narrow.json(JdkDeclarations::widened).equals(found.json(c -> c));
            return isLost ? "+\twide\t" + orSame(narrow.json(JdkDeclarations::widened), older) : "+\t-\t" + orSame(found.json(c -> c), older);
        }
        Declarations other = read(each(withPrivate(text), JdkDeclarations::toNarrow));
        boolean isTaken = other != null && !other.others;
        return isTaken ? "-\tchar\t" + orSame(other.json(c -> restored(widened(c))), older) : "-\t-\t";
    }

    private static String orSame(String json, String older) {
        return json.equals(older) ? "=" : json;
    }

    /** Nothing where the parser refuses it. */
    private static Declarations read(String text) throws Exception {
        byte[] document = ("<?xml version=\"1.1\"?><!DOCTYPE r [" + text + "]><r/>").getBytes(StandardCharsets.UTF_8);
        Declarations found = new Declarations();
        SAXParser parser = SAXParserFactory.newInstance().newSAXParser();
        parser.setProperty("http://xml.org/sax/properties/declaration-handler", found);
        parser.setProperty("http://xml.org/sax/properties/lexical-handler", found);
        try {
            parser.parse(new ByteArrayInputStream(document), found);
            found.others |= LITERAL.matcher(text).replaceAll("").contains("<?"); // a processing instruction here is not told
            return found;
        } catch (SAXException refused) {
            return null;
        }
    }

    private static class Declarations extends DefaultHandler2 {
        private final Map<String, String> entities = new LinkedHashMap<>();
        private boolean others;

        @Override public void internalEntityDecl(String name, String value) {
            others |= name.startsWith("%");
            entities.putIfAbsent(name, value);
        }

        @Override public void externalEntityDecl(String name, String publicId, String systemId) {
            others = true;
        }

        @Override public void elementDecl(String name, String model) {
            others = true;
        }

        @Override public void attributeDecl(String element, String name, String type, String mode, String value) {
            others = true;
        }

        @Override public void notationDecl(String name, String publicId, String systemId) {
            others = true;
        }

        @Override public void unparsedEntityDecl(String name, String publicId, String systemId, String notation) {
            others = true;
        }

        @Override public void comment(char[] characters, int start, int length) {
            others = true;
        }

        @Override public void startEntity(String name) {
            others |= name.startsWith("%");
        }

        String json(IntUnaryOperator mapped) {
            StringBuilder json = new StringBuilder("[");
            entities.forEach((name, value) -> {
                json.append(json.length() > 1 ? "," : "").append("{\"name\":").append(string(name)).append(",\"text\":");
                json.append(string(each(value, mapped))).append(",\"shadowed\":false}");
            });
            return escaped(json.append(']').toString());
        }
    }

    private static String string(String text) {
        StringBuilder result = new StringBuilder("\"");
        text.chars().forEach(c -> {
            if (c < ' ' || c == 0x7F) {
                result.append(String.format("\\u%04x", c));
            } else {
                result.append(c == '"' || c == '\\' ? "\\" : "").append((char) c);
            }
        });
        return result.append('"').toString();
    }

    private static String each(String text, IntUnaryOperator mapped) {
        return text.codePoints().map(mapped).collect(StringBuilder::new, StringBuilder::appendCodePoint, StringBuilder::append).toString();
    }

    /** Of characters that may not stand raw; those that may not be named are U+FFFE and U+FFFF. */
    private static String withPrivate(String text) {
        String named = NUMBER.matcher(text).replaceAll(match ->
            match.group(1).equals("65534") || match.group(1).equals("65535") ? "&#" + toPrivate(Integer.parseInt(match.group(1))) + ";" : match.group());
        return each(named, JdkDeclarations::toPrivate);
    }

    private static int toPrivate(int c) {
        boolean isRestricted = Character.isISOControl(c) && c != 0 && c != 9 && c != 10 && c != 13 && c != 0x85;
        return isRestricted || c == 0xFFFE || c == 0xFFFF ? 0xE000 + (c & 0xFF) : c;
    }

    private static int restored(int c) {
        return c >= 0xE0FE && c <= 0xE0FF ? c + 0x1F00 : c > 0xE000 && c < 0xE0A0 ? c - 0xE000 : c;
    }

    private static int toNarrow(int c) {
        int index = WIDE.indexOf(c);
        return index < 0 ? c : 0xF100 + index;
    }

    private static int widened(int c) {
        return c >= 0xF100 && c < 0xF100 + WIDE.size() ? WIDE.get(c - 0xF100) : c;
    }

    private static String escaped(String text) {
        StringBuilder result = new StringBuilder();
        for (byte one : text.getBytes(StandardCharsets.UTF_8)) {
            boolean prints = one >= ' ' && one <= '~' && one != '\\';
            result.append(prints ? String.valueOf((char) one) : String.format("\\x%02x", one & 0xFF));
        }
        return result.toString();
    }

    private static String unescaped(String text) {
        byte[] bytes = new byte[text.length()];
        int count = 0;
        for (int at = 0; at < text.length(); at++) {
            if (text.startsWith("\\x", at)) {
                bytes[count++] = (byte) Integer.parseInt(text.substring(at + 2, at + 4), 16);
                at += 3;
            } else {
                bytes[count++] = (byte) text.charAt(at);
            }
        }
        return new String(bytes, 0, count, StandardCharsets.UTF_8);
    }
}
