#!/usr/bin/env python3
"""Writes a PO file of about BYTES bytes, always the same one for the same SEED, on standard output.

    bench/make_po.py [--short] [--script SCRIPT] BYTES SEED > FILE

The file has the lengths and the parts of real ones: unique messages of one word to a page, one in ten with a
context, some with three plural forms, C formats, references, comments of translators and programmers, strings
over several lines, escapes, and a few fuzzy, untranslated and obsolete entries. With --short the messages are as long
as those of the catalogues that a Debian system has installed, 31 bytes on average. Translations are in Latin script
with accents, in Cyrillic, and in Chinese and Japanese; with --script they are in one alone: western, which ISO-8859-1
has, cyrillic, which KOI8-R has, or chinese, which GBK has. GNU `msgfmt -c` passes it without a word.
It ends with the last whole entry that fits, so it is shorter than BYTES by less than the longest entry.
"""
import argparse
import sys
from random import Random

HEADER = r'''# Messages of an imaginary program, made to measure compilers of message catalogues.
# This file is in the public domain.
#
msgid ""
msgstr ""
"Project-Id-Version: imaginary 3.2\n"
"Report-Msgid-Bugs-To: bugs@imaginary.example\n"
"PO-Revision-Date: 2026-09-01 12:00+0000\n"
"Last-Translator: Nobody In Particular <nobody@imaginary.example>\n"
"Language-Team: Russian <ru@imaginary.example>\n"
"Language: ru\n"
"MIME-Version: 1.0\n"
"Content-Type: text/plain; charset=UTF-8\n"
"Content-Transfer-Encoding: 8bit\n"
"Plural-Forms: nplurals=3; plural=n%10==1 && n%100!=11 ? 0 : n%10>=2 && n"
"%10<=4 && (n%100<10 || n%100>=20) ? 1 : 2;\n"
'''

ENGLISH = """the a an this that each every no some any one another and or but if when while where because until
file files folder window document page line column word text image picture sound message account user password
network server connection address printer screen keyboard mouse button menu option setting value name title list
item entry table row field key index size length time date day week month year format version update package
program application service process task error warning problem result answer question help information license
is are was has have had can cannot could may must should will would do does did not only already still again
open close save load read write print send receive copy move remove delete add insert change replace find search
select show hide start stop begin end continue cancel install download upload import export create rename restore
check verify enable disable use allow ignore accept refuse enter leave wait try ask set reset build run install
available invalid unknown missing empty full new old current previous next last first default automatic manual
local remote public private hidden visible large small long short wrong right high low damaged encrypted temporary
to of in on at by for from with without into over under before after between during through about as than then
here there now later once twice always never also too very more less most least enough several many few all""".split()

LATIN = """le la les un une des du de à au aux en dans sur sous avec sans pour par entre vers chez après avant pendant
fichier fichiers dossier fenêtre document page ligne colonne mot texte image son message compte utilisateur
réseau serveur connexion adresse imprimante écran clavier souris bouton menu option préférence valeur nom intitulé
liste élément entrée tableau rangée champ clé répertoire taille longueur durée date journée semaine mois année
programme logiciel tâche erreur avertissement problème résultat réponse question aide renseignement très déjà
est sont était été être avoir a ont peut peuvent doit doivent n'est n'a s'est qu'il qu'elle d'un d'une l'accès
ouvrir fermer enregistrer charger lire écrire imprimer envoyer recevoir copier déplacer retirer supprimer ajouter
insérer modifier remplacer trouver chercher sélectionner afficher masquer démarrer arrêter reprendre annuler
disponible incorrect inconnu absent vide plein nouveau ancien actuel précédent suivant dernier premier caché élevé
für größer müssen können löschen öffnen schließen über während Übertragung zurück Schlüssel Einträge gelöscht
plików został łącze się błąd żądanie źródło następny późniejszy użytkownik połączenie hasło wyczyścić není číslo
příkaz řádek soubor možnost uložit změny ação não opção configuração usuário está memória número você às são""".split()

CYRILLIC = """файл файла файлов папка окно документ страница строка столбец слово текст изображение звук сообщение
учётная запись пользователь пароль сеть сервер соединение адрес принтер экран клавиатура мышь кнопка меню параметр
настройка значение имя заголовок список элемент таблица поле ключ указатель размер длина время дата день неделя
месяц год формат версия обновление пакет программа приложение служба процесс задача ошибка предупреждение проблема
результат ответ вопрос справка сведения лицензия открыть закрыть сохранить загрузить прочитать записать напечатать
отправить получить скопировать переместить удалить добавить вставить изменить заменить найти искать выбрать
показать скрыть запустить остановить продолжить отменить установить проверить включить отключить использовать
доступен недопустимый неизвестный отсутствует пустой новый старый текущий предыдущий следующий последний первый
не и в на с по из для к от до за при без через между или если когда уже ещё только также более менее этот каждый
невозможно требуется необходимо автоматически зашифрованный повреждённый временный удалённый локальный""".split()

CJK = """文件 文件夹 窗口 文档 页面 文本 图像 声音 消息 帐户 用户 密码 网络 服务器 连接 地址 打印机 屏幕 键盘 鼠标 按钮 菜单
选项 设置 数值 名称 标题 列表 项目 表格 字段 索引 大小 长度 时间 日期 星期 月份 格式 版本 更新 软件包 程序 应用 服务 进程
任务 错误 警告 问题 结果 帮助 信息 许可证 打开 关闭 保存 载入 读取 写入 打印 发送 接收 复制 移动 删除 添加 插入 更改 替换
查找 选择 显示 隐藏 启动 停止 继续 取消 安装 下载 检查 启用 禁用 使用 可用 无效 未知 缺少 空白 新的 当前 上一个 下一个 默认
自动 本地 远程 临时 已加密 已损坏 的 了 在 和 或 不 请 无法 需要 可以 正在 没有 所有 此 该 将 从 到 被 与 为
ファイル フォルダー ウィンドウ 設定 読み込み 保存しました エラーが発生しました 接続できません 印刷 検索 置換 追加 編集
表示する 閉じる 次へ 前へ ください です ました ません から まで について による 更新中 ユーザー パスワード""".split()

# the words of each script that a charset of its own has
SCRIPTS = {"western": ("iso-8859-1", LATIN), "cyrillic": ("koi8-r", CYRILLIC), "chinese": ("gbk", CJK)}

CONTEXTS = """menu button dialog title tooltip column header status bar command action label error keyboard
toolbar printer calendar month weekday colour unit verb noun adjective""".split()

SOURCES = """main window document editor printer network account settings search export import dialog menu
toolbar calendar session plugin archive""".split()

FORMATS = ["%s", "%d", "%u", "%ld", "%.1f", "%5d", "%c", "%x", "%%", "\"%s\"", "'%s'"]
ENDINGS = ["", "", "", "", ".", ".", "!", "?", ":", "..."]
WIDTH = 77


class Writer:
    """Draws entries; it uses the bare `random()` alone, whose numbers are the same in each version of Python."""

    def __init__(self, seed, is_short=False, script=None):
        self.random = Random(seed).random
        self.is_short = is_short
        self.script = script and [it for it in SCRIPTS[script][1] if has(SCRIPTS[script][0], it)]
        self.seen = set()

    def below(self, limit):
        return int(self.random() * limit)

    def one_of(self, items):
        return items[int(self.random() * len(items))]

    def words(self, vocabulary, count):
        size, draw = len(vocabulary), self.random
        return [vocabulary[int(draw() * size)] for _ in range(count)]

    def word_count(self):
        """Short labels, sentences, paragraphs and pages, about as often as in real catalogues."""
        kind = self.random()
        if self.is_short:
            return self.short_count(kind)
        if kind < 0.50:
            return 1 + self.below(5)
        if kind < 0.87:
            return 5 + self.below(10)
        if kind < 0.985:
            return 15 + self.below(35)
        return 50 + self.below(150)

    def short_count(self, kind):
        if kind < 0.55:
            return 1 + self.below(3)
        if kind < 0.90:
            return 3 + self.below(6)
        if kind < 0.99:
            return 8 + self.below(15)
        return 20 + self.below(60)

    def formats(self):
        """The directives of a C format; None for a message that is none."""
        if self.random() >= 0.22:
            return None
        return [self.one_of(FORMATS) for _ in range(1 + self.below(3))]

    def text(self, words, formats, shape, space=" "):
        """Joins words and directives, in the order of the directives; `shape` says where lines end, and how the text ends."""
        words = words[:]
        for i, it in enumerate(formats or ()):
            words.insert((i + 1) * len(words) // (len(formats) + 1) + i, it)
        if shape["quoted"]:
            at = len(words) // 2
            words[at] = words[at] if "%" in words[at] else f'"{words[at]}"'
        if shape["path"]:
            words.append("C:\\Data\\" + shape["path"])
        joined = space.join(words) + shape["ending"]
        if shape["tab"]:
            joined = joined.replace(space, "\t", 1) if space else joined + "\t" + shape["tab"]
        if shape["lines"]:
            step = max(1, len(words) // shape["lines"])
            parts = [space.join(words[i : i + step]) for i in range(0, len(words), step)]
            joined = "\n".join(parts) + shape["ending"]
        return joined + "\n" * shape["newline"]

    def shape(self, count):
        return {
            "quoted": self.random() < 0.06,
            "path": f"{self.one_of(SOURCES)}.txt" if self.random() < 0.01 else "",
            "ending": self.one_of(ENDINGS),
            "tab": "1" if self.random() < 0.02 else "",
            "lines": 1 + self.below(6) if count > 20 and self.random() < 0.5 else 0,
            "newline": self.random() < 0.15,
        }

    def translation(self, count, formats, shape):
        if self.script:
            return self.text(self.words(self.script, count), formats, shape)
        kind = self.random()
        if kind < 0.40:
            return self.text(self.words(CYRILLIC, count), formats, shape)
        if kind < 0.75:
            return self.text(self.words(LATIN, count + count // 5), formats, shape)
        return self.text(self.words(CJK, max(1, count * 3 // 4)), formats, shape, space="" if not formats else " ")

    def comments(self):
        lines = []
        if self.random() < 0.06:
            lines.append("# " + " ".join(self.words(self.script or CYRILLIC, 3 + self.below(8))))
        if self.random() < 0.12:
            lines.append("#. " + " ".join(self.words(ENGLISH, 4 + self.below(12))))
        places = [f"src/{self.one_of(SOURCES)}/{self.one_of(SOURCES)}.c:{1 + self.below(3000)}" for _ in range(1 + self.below(4) // 2)]
        lines.append("#: " + " ".join(places))
        return lines

    def entry(self):
        """One entry, as the text of its lines."""
        count, formats = self.word_count(), self.formats()
        shape = self.shape(count)
        context = self.one_of(CONTEXTS) if self.random() < 0.10 else None
        words = self.words(ENGLISH, count)
        words[0] = words[0].capitalize()
        original = self.text(words, formats, shape)
        while (context, original) in self.seen:
            words.append(self.one_of(ENGLISH))
            original = self.text(words, formats, shape)
        self.seen.add((context, original))
        fate = self.random()
        lines = self.comments()
        flags = [*["fuzzy"] * (fate < 0.015), *["c-format"] * (formats is not None)]
        if flags:
            lines.append("#, " + ", ".join(flags))
        if fate < 0.005:
            lines.append(f'#| msgid "{" ".join(self.words(ENGLISH, 1 + self.below(4)))}"')
        if context:
            lines.append(f'msgctxt "{context}"')
        lines += quoted("msgid", original)
        is_plural = self.random() < 0.05
        if is_plural:
            lines += quoted("msgid_plural", self.text([*words[:-1], words[-1] + "s"], formats, shape))
        is_translated = not 0.015 <= fate < 0.03
        for keyword in ("msgstr[0]", "msgstr[1]", "msgstr[2]") if is_plural else ("msgstr",):
            lines += quoted(keyword, self.translation(count, formats, shape) if is_translated else "")
        if 0.03 <= fate < 0.035 and not any(it.startswith("#,") for it in lines):
            lines = ["#~ " + it for it in lines if not it.startswith("#")]
        return "\n" + "\n".join(lines) + "\n"


def has(charset, text):
    """Whether a charset has all characters of a text."""
    try:
        return bool(text.encode(charset))
    except UnicodeEncodeError:
        return False


def escaped(text):
    text = text.replace("\\", "\\\\").replace('"', '\\"').replace("\t", "\\t").replace("\n", "\\n")
    return text.replace("é", "\\303\\251", 1) if text.startswith("é") else text


def quoted(keyword, text):
    """The lines of a keyword and its text, wrapped about as the gettext tools wrap it."""
    body = escaped(text)
    if len(body) + len(keyword) + 3 <= WIDTH and "\\n" not in body[:-2]:
        return [f'{keyword} "{body}"']
    lines = [f'{keyword} ""']
    parts = body.replace("\\n", "\\n\0").split("\0")
    for part in parts:
        while part:
            cut = line_end(part)
            lines.append(f'"{part[:cut]}"')
            part = part[cut:]
    return lines


def line_end(part):
    """Where the first line of a text ends: behind a space, or in a script without spaces behind a character, and in no escape."""
    if len(part) <= (WIDTH if part.isascii() or " " in part[:WIDTH] else WIDTH // 2):
        return len(part)
    space = part.rfind(" ", 0, WIDTH) + 1
    if space:
        return space
    cut = WIDTH // 2
    while "\\" in part[cut - 4 : cut]:
        cut -= 1
    return cut


def main():
    parser = argparse.ArgumentParser(usage="make_po.py [--short] [--script SCRIPT] BYTES SEED")
    parser.add_argument("--short", action="store_true")
    parser.add_argument("--script", choices=SCRIPTS)
    parser.add_argument("size", type=int)
    parser.add_argument("seed", type=int)
    asked = parser.parse_args()
    size, writer = asked.size, Writer(asked.seed, asked.short, asked.script)
    out = sys.stdout.buffer
    left = size - len(HEADER.encode())
    out.write(HEADER.encode())
    while True:
        entry = writer.entry().encode()
        if len(entry) > left:
            break
        out.write(entry)
        left -= len(entry)
    out.flush()


if __name__ == "__main__":
    main()
